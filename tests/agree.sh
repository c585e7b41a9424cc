#!/bin/bash
# The library beside an independent decoder that follows the Recommendation's own rules (tests/c/paper.c). tests/c/agree.c compares
# them on written and damaged frames, on the known places, on the printed rows, on every ID, on audio channels marked 1111 and on
# replaced ones, and on frames with other spare bits; its lines have to be those of tests/c/agree.stdout, and none may say DIFFERS.
set -u
cd "$(dirname "$0")/.."
. tests/c/env.sh
work=$(mktemp -d)
trap 'rm -rf "$work"' EXIT

build_library || { echo "independent decoder: the library could not be built"; exit 1; }
$CC -std=c11 -O2 -Wall -Wextra -Werror -Iinclude -o "$work/agree" tests/c/agree.c tests/c/paper.c "$LIBRARY" ||
    { echo "independent decoder: tests/c/agree.c could not be compiled"; exit 1; }

said='as stored'
$RUN "$work/agree" >"$work/stdout" || { echo "independent decoder: agree has ended with $?"; said='not as stored'; }
! grep DIFFERS "$work/stdout" || said='not as stored'
diff tests/c/agree.stdout "$work/stdout" || said='not as stored'

lines=$(($(wc -l <"$work/stdout")))
echo "independent decoder: $lines lines $said"
[ "$said" = 'as stored' ] && [ "$lines" -gt 0 ]
