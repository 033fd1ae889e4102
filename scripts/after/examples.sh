#!/bin/bash
# What the programs say of the examples is what examples/ has: ./wisnoeur read of each example that examples/expected.txt
# lists, and ./wisnoeur_next check of every example, in examples/expected-check.txt. Runs after the proofs, on the programs
# that they built; `scripts/after/examples.sh --write` writes the files anew.
set -euo pipefail
cd "$(dirname "$0")/../.."

work=$(mktemp -d)
trap 'rm -rf "$work"' EXIT
status=0

# What a program says to the command for each of the files is what the file EXPECTED has.
compare() { # EXPECTED PROGRAM COMMAND FILE..
    local expected=$1 program=$2 command=$3 file code
    shift 3
    for file in "$@"; do
        echo "\$ wisnoeur $command $file"
        code=0
        "./$program" "$command" "$file" || code=$?
        echo "status $code"
    done >"$work/said"
    if [ "$is_written" ]; then
        cp "$work/said" "$expected"
    else
        diff -u "$expected" "$work/said" || status=1
    fi
}

is_written=
[ "${1:-}" != --write ] || is_written=yes
mapfile -t landed < <(sed -n 's/^\$ wisnoeur read //p' examples/expected.txt)
[ ${#landed[@]} -gt 0 ] || { echo "examples/expected.txt lists no example" >&2; exit 1; }
compare examples/expected.txt wisnoeur read "${landed[@]}"
compare examples/expected-check.txt wisnoeur_next check examples/*.pas
exit $status
