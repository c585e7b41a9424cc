#!/bin/bash
# differ.sh [CASES [SEED]]: the library's eleven calls beside tests/c/plain.c, an implementation of its own in C, on written,
# damaged and rubbish frames. A difference fails; so does a refusal number of a call that no case met, or 0, 24 or 25 of a channel
# with an AS of mode 1111; and so does, of every two causes to refuse a replacement, another number than the lower.
set -u
. "$(dirname "$0")/c/env.sh"
work=$(mktemp -d)
trap 'rm -rf "$work"' EXIT
build_library || exit 1
$CC -std=c11 -O2 -g -Wall -Wextra -Werror -I "$top/include" "$top/tests/c/differ.c" "$top/tests/c/plain.c" "$LIBRARY" \
    -o "$work/differ" || exit 1
$RUN "$work/differ" "${1:-20000}" ${2:+"$2"}
