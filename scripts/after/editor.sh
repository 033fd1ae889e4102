#!/bin/bash
# The C program of editor/ is compiled, linked with the library for C and run on the examples and on empty, huge and
# damaged texts; it prints what editor/expected.txt has. Runs after the proofs; the library is proved and built here,
# over what earlier checks kept. `scripts/after/editor.sh --write` writes the file anew.
set -euo pipefail
cd "$(dirname "$0")/../.."
top=$PWD

work=$(mktemp -d)
trap 'rm -rf "$work"' EXIT
(cd crates/verdict_c && rt lib) >"$work/log" 2>&1 || { tail -n 20 "$work/log" >&2; exit 1; }
cp crates/verdict_c/out/libverdict_c.a "$work/libverdict.a"
gcc -O2 -Wall -Wextra -Werror -o "$work/verdict" editor/verdict.c "$work/libverdict.a"

cp examples/*.pas "$work"
cd "$work"
: >empty
head -c 16384 /dev/zero | tr '\0' ' ' >blanks-16384
head -c 16385 /dev/zero | tr '\0' ' ' >blanks-16385
head -c 20000000 /dev/zero | tr '\0' 'a' >huge
head -c 100 drying.pas >cut
tr 'e' '\377' <drying.pas >damaged
head -c 5000 /dev/zero >zeros
./verdict *.pas empty blanks-16384 blanks-16385 huge cut damaged zeros >said
if [ "${1:-}" = --write ]; then
    cp said "$top/editor/expected.txt"
else
    diff -u "$top/editor/expected.txt" said
fi
