#!/bin/bash
# The survey program on frames good and bad, by file and by pipe. Each case says what it must print; any other output fails.
set -u
cd "$(dirname "$0")/.."
work=$(mktemp -d)
trap 'rm -rf "$work"' EXIT
passed=0 failed=0

frame() { perl tests/frames.pl "$@"; }

# expect NAME WANTED: what the program prints of standard input
expect() {
    local got
    got=$(scripts/run-survey; echo "end $?")
    if [ "$got" = "$(printf "$2"; echo 'end 0')" ]; then
        passed=$((passed + 1))
    else
        failed=$((failed + 1))
        printf 'survey test %s FAILED: it printed\n%s\n' "$1" "$got" | head -n 12
    fi
}

# The first 64 records of a frame whose blocks all have fault $1 but for the lines of the file $2, and the total $3
sixty_four() {
    for p in $(seq 0 63); do echo "F\t0\t0\t$p\t$1"; done | sed -f "$2" | tr '\n' '~' | sed 's/~/\\n/g'
    printf 'T\\t%s\\t64\\n' "$3"
}

# ---- whole frames
expect example 'F\t1\t3\t22\t12\nT\t1\t1\n' <crates/survey/stdin
expect clean-60 'T\t0\t0\n' < <(frame 60)
expect clean-50 'T\t0\t0\n' < <(frame 50)
expect last-block-60 'F\t3\t9\t149\t12\nT\t1\t1\n' < <(frame 60 zero:3,9,149)
expect last-block-50 'F\t3\t11\t149\t12\nT\t1\t1\n' < <(frame 50 zero:3,11,149)

# ---- each fault: a reserved section; another section, channel, Dseq, DBN; and the lowest where several fit
expect fault-11 'F\t2\t4\t50\t11\nT\t1\t1\n' < <(frame 60 byte:2,4,50,0=BF)
expect fault-12 'F\t2\t4\t50\t12\nT\t1\t1\n' < <(frame 60 byte:2,4,50,0=7F)
expect fault-13 'F\t2\t4\t50\t13\nT\t1\t1\n' < <(frame 60 byte:2,4,50,1=47)
expect fault-14 'F\t2\t4\t50\t14\nT\t1\t1\n' < <(frame 60 byte:2,4,50,1=53)
expect fault-15 'F\t2\t4\t50\t15\nT\t1\t1\n' < <(frame 60 byte:2,4,50,2=00)
expect lowest-fault 'F\t2\t4\t50\t13\nT\t1\t1\n' < <(frame 60 byte:2,4,50,1=57 byte:2,4,50,2=00)

# ---- the other bits of an ID are ignored, and stream order is kept
expect other-bits 'T\t0\t0\n' < <(frame 60 byte:2,4,50,0=80 byte:2,4,50,1=40)
expect stream-order 'F\t0\t11\t148\t12\nF\t0\t11\t149\t12\nF\t1\t0\t0\t13\nT\t3\t3\n' < <(frame 50 zero:1,0,0 zero:0,11,149 zero:0,11,148)

# ---- every block bad: the first 64 are kept. An ID of three zeros is that of H0 of DIF channel 2, sequence 0, which so names its place
: >"$work/none"
printf 's/^\\(F.t0.t0.t0.t\\)12$/\\113/\n' >"$work/header"
expect all-bad-60 "$(sixty_four 11 "$work/none" 6000)" < <(frame 60 ff-all byte:0,0,0,3=3F)
expect all-bad-50 "$(sixty_four 11 "$work/none" 7200)" < <(frame 50 ff-all)
expect all-zero-60 "$(sixty_four 12 "$work/header" 5999)" < <(frame 60 zero-all)
expect all-zero-50 "$(sixty_four 12 "$work/header" 7199)" < <(frame 50 zero-all byte:0,0,0,3=80)

# ---- wrong lengths
expect empty 'E\t2\n' < <(printf '')
expect three-bytes 'E\t2\n' < <(frame 60 | head -c 3)
expect four-bytes 'E\t2\n' < <(frame 60 | head -c 4)
expect one-sequence 'E\t2\n' < <(frame 60 | head -c 12000)
expect one-short-60 'E\t2\n' < <(frame 60 | head -c 479999)
expect one-short-50 'E\t2\n' < <(frame 50 | head -c 575999)
expect one-long-60 'E\t2\n' < <(frame 60; printf x)
expect one-long-50 'E\t2\n' < <(frame 50; printf x)
expect two-frames 'E\t2\n' < <(frame 60; frame 60)
expect long-tail 'E\t2\n' < <(frame 50; head -c 1000000 /dev/zero)
expect 60-called-50 'E\t2\n' < <(frame 60 byte:0,0,0,3=BF)
expect 50-called-60 'E\t2\n' < <(frame 50 byte:0,0,0,3=3F)

# ---- input that arrives in small pieces
pieces() { perl -e '$| = 1; binmode STDIN; while (sysread STDIN, my $x, 1777) { syswrite STDOUT, $x; select undef, undef, undef, 0.001 }'; }
expect pieces-60 'F\t1\t3\t22\t12\nT\t1\t1\n' < <(frame 60 zero:1,3,22 | pieces)
expect pieces-50 'F\t1\t3\t22\t12\nT\t1\t1\n' < <(frame 50 zero:1,3,22 | pieces)
expect pieces-long 'E\t2\n' < <({ frame 60; printf x; } | pieces)

echo "survey program: $passed cases passed, $failed failed"
[ "$failed" -eq 0 ] && [ "$passed" -eq "$(grep -c "^expect " tests/survey.sh)" ]
