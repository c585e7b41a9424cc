#!/bin/bash
# The library's writer beside tests/written.pl, which is written from the paper alone: the checksums that the test program try_writer
# has stored are those of written.pl's frames, and the frame stored for the survey program is one of these. A difference fails.
set -u
cd "$(dirname "$0")/.."
work=$(mktemp -d)
trap 'rm -rf "$work"' EXIT
stored=crates/try_writer/stdout
passed=0 failed=0

# result NAME DIFFERENCE: a case passes where there is no difference
result() {
    if [ -z "$2" ]; then
        passed=$((passed + 1))
        echo "written test $1 passed"
    else
        failed=$((failed + 1))
        printf 'written test %s FAILED: %s\n' "$1" "$2"
    fi
}

# same NAME WANTED GOT: two texts
same() {
    local difference=
    [ "$2" = "$3" ] || difference="wanted is '$2', there is '$3'"
    result "$1" "$difference"
}

# ---- the checksum lines, each by its place, and no more of them on either side than there are cases
perl tests/written.pl sums >"$work/ours"
grep '^sum' "$stored" >"$work/theirs"
line=0
for name in A B C D E; do
    line=$((line + 1))
    same "sum-$name" "$(sed -n "${line}p" "$work/ours")" "$(sed -n "${line}p" "$work/theirs")"
done
same paper-lines 5 "$(($(wc -l <"$work/ours")))"
same stored-lines 5 "$(($(wc -l <"$work/theirs")))"

# ---- the survey program's frame
perl tests/written.pl A zero:1,3,22 >"$work/frame"
result survey-frame "$(cmp "$work/frame" crates/survey/stdin 2>&1 | sed "s|$work/frame|the paper's frame|")"

echo "written frames: $passed cases passed, $failed failed"
[ "$failed" -eq 0 ] && [ "$passed" -eq 8 ]
