#!/bin/bash
# Tries each crates/NAME/must-not-build/*.edit on one copy of the repository, outside it: the compiler must refuse it
# with the named error, before anything of the crate is proved.
# An edit has the lines 'file:', 'old:' (text that stands once in the file), 'new:', 'error:' (the error's name) and
# 'text:' (words of its first line).
set -euo pipefail
cd "$(dirname "$0")/../.."
top=$PWD

copy=$(mktemp -d)
trap 'rm -rf "$copy"' EXIT
tar -c --exclude='crates/*/out' crates crates.txt | tar -x -C "$copy"

field() { sed -n "s/^$1: //p" "$2" | head -n 1; }

# The file with the edit made in it.
edited() { # EDIT FILE
    OLD=$(field old "$1") NEW=$(field new "$1") awk '
        { text = text $0 "\n" }
        END {
            old = ENVIRON["OLD"]; at = index(text, old)
            if (old == "" || !at || index(substr(text, at + length(old)), old)) exit 3
            printf "%s%s%s", substr(text, 1, at - 1), ENVIRON["NEW"], substr(text, at + length(old))
        }' "$2"
}

# Whether the compiler refuses the edit as it should.
is_refused() { # NAME EDIT
    local file path error text status=0 first
    file=$(field file "$2")
    path=crates/$1/$file
    error=$(field error "$2")
    text=$(field text "$2")
    if ! edited "$2" "$top/$path" >"$copy/$path"; then
        cp "$top/$path" "$copy/$path"
        echo "its old text does not stand once in $path"
        return 1
    fi
    (cd "$copy/crates/$1" && rt check) >"$copy/log" 2>&1 || status=$?
    cp "$top/$path" "$copy/$path"
    first=$(grep -m 1 ': error\[' "$copy/log" || true)
    case $first in
    "$file:"*": error[$error]: "*"$text"*)
        [ $status -ne 0 ] && ! grep -q "^fn $1::" "$copy/log" && return 0
        ;;
    esac
    echo "exit $status, ${first:-no error}"
    return 1
}

cases=0
status=0
for edit in crates/*/must-not-build/*.edit; do
    name=$(basename "$(dirname "$(dirname "$edit")")")
    cases=$((cases + 1))
    if said=$(is_refused "$name" "$edit"); then
        echo "$edit: refused"
    else
        echo "$edit: NOT REFUSED: $said"
        status=1
    fi
done
[ $cases -gt 0 ] || { echo "there is no case that must not build" >&2; exit 1; }
exit $status
