#!/bin/bash
# The library's strict reads, salvage and new audio channels beside tests/reads.pl, which is written from the paper alone: each line
# that the test program try_reads has stored is the one that reads.pl prints. A difference fails.
set -u
cd "$(dirname "$0")/.."
work=$(mktemp -d)
trap 'rm -rf "$work"' EXIT
stored=crates/try_reads/stdout
agree=0 differ=0

perl tests/reads.pl >"$work/ours"
status=$?
[ "$status" -eq 0 ] || echo "read frames: tests/reads.pl has ended with $status"

# ---- each line by its place, and as many of them on either side
mapfile -t ours <"$work/ours"
mapfile -t theirs <"$stored"
lines=$(($(wc -l <"$work/ours")))
stored_lines=$(($(wc -l <"$stored")))
most=$((${#ours[@]} > ${#theirs[@]} ? ${#ours[@]} : ${#theirs[@]}))
for ((i = 0; i < most; i++)); do
    wanted=${ours[i]-no line}
    got=${theirs[i]-no line}
    if [ "$wanted" = "$got" ]; then
        agree=$((agree + 1))
    else
        differ=$((differ + 1))
        printf 'reads line %s FAILED: wanted is\n%s\nthere is\n%s\n' "$((i + 1))" "$wanted" "$got"
    fi
done
[ "$lines" -eq "$stored_lines" ] || echo "read frames: wanted are $lines lines, there are $stored_lines"

echo "read frames: $agree lines agree, $differ differ"
[ "$status" -eq 0 ] && [ "$differ" -eq 0 ] && [ "$lines" -eq "$stored_lines" ] && [ "$agree" -ge 300 ]
