#!/bin/bash
# docs/ says what each refusal of read, and of the questions after it means: a line of a table or a list that begins with the number.
set -euo pipefail
cd "$(dirname "$0")/../.."

if [ ! -d docs ]; then
    echo "there is no docs/" >&2
    exit 1
fi
status=0
for number in 1 2 3 4 5 6 7 8 11 12 13 14 21 22 23 24 25; do
    if ! grep -rqE "^[|*\`[:blank:]-]*$number[^0-9]" docs; then
        echo "docs/ has no line for refusal $number" >&2
        status=1
    fi
done
exit $status
