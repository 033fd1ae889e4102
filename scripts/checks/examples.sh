#!/bin/bash
# The gate runs both programs on the examples. The standard input of wisnoeur has each example that examples/expected.txt
# lists as a line to read, and that of wisnoeur_next a verdict on every example; the answers in the crates' stdout are
# those of examples/expected.txt and examples/expected-check.txt.
set -euo pipefail
cd "$(dirname "$0")/../.."

# what expected.txt says of a file: the count of nodes or the number of the refusal, as in an answer
read_answer() { # FILE
    awk -v command="\$ wisnoeur read $1" '
        $0 == command { found = 1; next }
        found && /^read: / { print "read ok " $2; exit }
        found { match($0, /refused \([0-9]+\)/); print "read no " substr($0, RSTART + 9, RLENGTH - 10); exit }
    ' examples/expected.txt
}

# what expected-check.txt says of a file: the number of the refusal, or 0
verdict_answer() { # FILE
    awk -v command="\$ wisnoeur check $1" '
        $0 == command { found = 1; next }
        found && /^accepted: / { print "verdict 0"; exit }
        found { match($0, /refused \([0-9]+\)/); print "verdict " substr($0, RSTART + 9, RLENGTH - 10); exit }
    ' examples/expected-check.txt
}

status=0

# The crate's stdin has the line, and its stdout the answer that is wanted, by its first words.
stands() { # CRATE LINE FILE WORDS WANTED
    local line number answer
    line="$2 $(od -An -v -tx1 "$3" | tr -d ' \n')"
    number=$(grep -nxF -- "$line" "crates/$1/stdin" | head -n 1 | cut -d: -f1 || true)
    if [ -z "$number" ]; then
        echo "crates/$1/stdin lacks $3: $line" >&2
        status=1
        return
    fi
    answer=$(sed -n "${number}p" "crates/$1/stdout" | cut -d' ' -f"1-$4")
    if [ -z "$5" ] || [ "$answer" != "$5" ]; then
        echo "$3: the expected answer is '$5', crates/$1/stdout has '$answer'" >&2
        status=1
    fi
}

mapfile -t landed < <(sed -n 's/^\$ wisnoeur read //p' examples/expected.txt)
[ ${#landed[@]} -gt 0 ] || { echo "examples/expected.txt lists no example" >&2; exit 1; }
for file in "${landed[@]}"; do
    stands wisnoeur "read 1024" "$file" 3 "$(read_answer "$file")"
done
for file in examples/*.pas; do
    stands wisnoeur_next verdict "$file" 2 "$(verdict_answer "$file")"
done
exit $status
