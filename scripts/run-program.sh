#!/bin/bash
# Runs the program of crates/NAME with the arguments that follow its name, after proving and building it where it is
# missing or older than a source. ./wisnoeur and ./wisnoeur_next call it.
set -euo pipefail
top=$(dirname "$(dirname "$(readlink -f "$0")")")
name=$1
shift
program=$top/crates/$name/out/$name

is_current() {
    [ -x "$program" ] && [ -z "$(find "$top/crates.txt" "$top"/crates/*/{src,specs,proofs} -newer "$program" -print -quit 2>/dev/null)" ]
}

if ! is_current; then
    echo "$name: proving and building the program; this takes a while" >&2
    (cd "$top/crates/$name" && rt run -- help) >/dev/null </dev/null
    touch "$program"
fi
exec "$program" "$@"
