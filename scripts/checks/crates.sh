#!/bin/bash
# Every folder under crates/ is listed in crates.txt, so that nothing is left unproved.
set -euo pipefail
cd "$(dirname "$0")/../.."

status=0
for dir in crates/*/; do
    name=$(basename "$dir")
    if ! grep -qE "^$name( staticlib)?:" crates.txt; then
        echo "crates.txt does not list $name" >&2
        status=1
    fi
done
exit $status
