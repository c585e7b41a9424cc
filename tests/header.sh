#!/bin/bash
# The C header beside the exports: every prototype and struct is what the sources say (tests/header.pl), every name is in the static
# library and no other, and the header is good C by itself, and good C++ where there is a compiler for it. A difference fails.
set -u
cd "$(dirname "$0")/.."
. tests/c/env.sh
work=$(mktemp -d)
trap 'rm -rf "$work"' EXIT
failed=0

# same NAME WANTED GOT: two files
same() {
    if diff "$2" "$3" >"$work/difference"; then
        echo "header test $1 passed"
    else
        failed=1
        echo "header test $1 FAILED:"
        cat "$work/difference"
    fi
}

build_library || exit 1
perl tests/header.pl >"$work/sources"
perl tests/header.pl --header >"$work/header"
same prototypes "$work/sources" "$work/header"

# eleven calls and five structs
wc -l <"$work/header" >"$work/lines"
echo 16 >"$work/sixteen"
same sixteen-lines "$work/sixteen" "$work/lines"

$NM "$LIBRARY" >"$work/names" || { echo "header test FAILED: the static library cannot be read"; exit 1; }
grep -o 'dv100_[a-z_]*(' "$work/header" | tr -d '(' | sort >"$work/declared"
$NM -g --defined-only "$LIBRARY" | awk 'NF == 3 { print $3 }' | sort >"$work/exported"
same exports "$work/declared" "$work/exported"

# the library needs nothing but itself
$NM -u "$LIBRARY" | awk 'NF == 2' >"$work/needed"
same stands-alone /dev/null "$work/needed"

echo '#include "dv100.h"' >"$work/alone.c"
$CC -std=c99 -Wall -Wextra -pedantic -Werror -Iinclude -c "$work/alone.c" -o "$work/alone.o" >"$work/said" 2>&1
same c99 /dev/null "$work/said"

if command -v g++ >/dev/null; then
    g++ -std=c++11 -Wall -Wextra -pedantic -Werror -Iinclude -fsyntax-only -x c++ "$work/alone.c" >"$work/said" 2>&1
    same c++11 /dev/null "$work/said"
fi

[ "$failed" -eq 0 ] && echo "header: 11 calls and 5 structs agree with the exports"
