#!/bin/bash
# What each refused edit breaks, by all that the prover says of it, is what docs/PROMISES.md says of it: the rows of its last table, in
# the same order, and in the last column the same names in any order, as the prover's jobs come to them. A difference fails. tests/fallen.sums has, for each row that was seen to hold, the sum of what it stands on; an edit
# whose sum is another is tried anew (tests/edits.pl, $1 at once, 2 where nothing is said), and its sum is written where all rows hold.
set -u
cd "$(dirname "$0")/.."
work=$(mktemp -d)
trap 'rm -rf "$work"' EXIT
touch tests/fallen.sums

perl tests/edits.pl --sums >"$work/sums" || exit 1
# the rows that were seen to hold, and the others
comm -12 <(sort "$work/sums") <(sort tests/fallen.sums) | cut -d ' ' -f 2 >"$work/kept"
perl tests/edits.pl "${1:-2}" || { echo "fallen: tests/edits.pl has ended with $?"; exit 1; }
perl tests/fallen.pl "$work/kept" >"$work/fallen"
status=$?
[ "$status" -eq 0 ] || echo "fallen: tests/fallen.pl has ended with $status"
awk '/^## What each edit breaks/ { on = 1 } on && /^\| [a-z_0-9]+ `/' docs/PROMISES.md >"$work/said"
rows=$(($(wc -l <"$work/said")))
awk -F '[ `|]+' 'FILENAME == ARGV[1] { kept[$0] = 1; next } !($2 "/" $3 in kept)' "$work/kept" "$work/said" >"$work/asked"
# the last column in the order of the alphabet
by_name() { perl -pe 's{([^|]+) \|$}{" " . join(", ", sort split /, /, $1 =~ s/^ +//r) . " |"}e' "$1"; }
if diff <(by_name "$work/asked") <(by_name "$work/fallen"); then differ=0; else differ=1; fi
[ "$rows" -eq "$(($(wc -l <"$work/sums")))" ] || { echo "fallen: $rows rows, and another number of edits"; differ=1; }

echo "refused edits: docs/PROMISES.md says of $rows what they break, $([ "$differ" -eq 0 ] && echo and so it is || echo which differs)"
[ "$status" -eq 0 ] && [ "$differ" -eq 0 ] && [ "$rows" -gt 0 ] || exit 1
cmp -s "$work/sums" tests/fallen.sums || cp "$work/sums" tests/fallen.sums
