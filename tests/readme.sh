#!/bin/bash
# The README's C examples: each is a file of examples/, and its commands, run as they are printed, print what is printed there.
set -u
cd "$(dirname "$0")/.."
. tests/c/env.sh
work=$(mktemp -d)
trap 'rm -rf "$work"' EXIT

# block N: the N-th fenced block of the README's section 'From C'
block() {
    awk -v n="$1" '/^## / { inside = $0 == "## From C" } inside && /^```/ { fence++; next } inside && fence == 2 * n - 1' README.md
}

# example NAME N: examples/NAME.c, whose commands, output and source are blocks N, N + 1 and N + 2
example() {
    block "$2" >"$work/commands"
    block $(($2 + 1)) >"$work/printed"
    block $(($2 + 2)) >"$work/example.c"
    [ -s "$work/commands" ] && [ -s "$work/printed" ] || { echo "readme FAILED: no commands, or no output, of $1"; exit 1; }
    diff "examples/$1.c" "$work/example.c" || { echo "readme FAILED: the printed example is not examples/$1.c"; exit 1; }

    # on Arm the cross compiler stands for gcc, and the emulator runs the program
    if [ -n "$RUN" ]; then
        sed -i "s|^gcc |$CC |; s|^target/|$RUN target/|" "$work/commands"
    fi
    bash -e "$work/commands" >"$work/output" 2>"$work/errors" </dev/null ||
        { echo "readme FAILED: a command of $1 fails"; cat "$work/errors"; exit 1; }
    diff "$work/printed" "$work/output" || { echo "readme FAILED: the commands of $1 print something else"; exit 1; }
}

[ "$(block 1)" = "mkdir -p target; (cd crates/dv100 && rt lib --backend rattle)" ] || { echo "readme FAILED: the library is built by another command"; exit 1; }
[ "$(cd examples && echo *)" = "commentary.c salvage.c" ] || { echo "readme FAILED: other examples are there"; exit 1; }
mkdir -p target; build_library || exit 1
example salvage 2
example commentary 5
[ -z "$(block 8)" ] || { echo "readme FAILED: something is printed that is not tried"; exit 1; }
echo "readme: both C examples compile and run as printed"
