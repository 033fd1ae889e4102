#!/bin/bash
# Counts, for each point of docs/DESIGN-PASS.md, the lines of crates/*/src where a place may stand, and lists them with
# `tools/places.sh --list NAME`. It finds candidates: which of them are places, the page says.
# `tools/places.sh --at COMMIT` counts at a commit.
set -euo pipefail
cd "$(dirname "$0")/.."

root=$PWD
list=
while [ $# -gt 0 ]; do
    case $1 in
        --list) list=$2; shift 2 ;;
        --at)
            root=$(mktemp -d)
            trap 'rm -rf "$root"' EXIT
            git archive "$2" crates | tar -x -C "$root"
            shift 2
            ;;
        *) echo "usage: tools/places.sh [--at COMMIT] [--list NAME]" >&2; exit 2 ;;
    esac
done
cd "$root"

# The sources that are no tests.
mapfile -t sources < <(find crates/*/src -name '*.rt' | grep -vE '/(trials|check_trials|line_trials)/' | LC_ALL=C sort)

# count_lines NAME PATTERN [WHAT IT LEAVES OUT]
count_lines() {
    local lines
    lines=$(grep -nE -- "$2" "${sources[@]}" | { if [ -n "${3:-}" ]; then grep -vE -- "$3"; else cat; fi } || true)
    if [ "$list" = "$1" ]; then
        printf '%s\n' "$lines"
    elif [ -z "$list" ]; then
        printf '%-22s %4d\n' "$1" "$(printf '%s' "$lines" | grep -c '' || true)"
    fi
}

count_lines 1-enums '^\s*(pub(\(crate\))? )?enum '
count_lines 1-numbers '=> [0-9]+,' 'rest|\[\]'
count_lines 1-codes '^(pub )?const [A-Z_]+: u8 ='
count_lines 1-flags '\) -> bool$|\) -> bool \{$|^\s*(pub(\(crate\))? )?[a-z_]+: bool,' 'fn (is|are|has|all)_|fn (is|has|holds|covers)\('
count_lines 1-laws '^pub fn [a-z_]*(laws|lengths|examples)\(\) -> u8'
count_lines 3-loops '^\s*(while|loop|for)\b'
count_lines 4-truths '=> (true|false),'
count_lines 4-conversions 'fn (code|from_code|number|operator|spelling|of)\((self|c: u8|number: i32|rejection: Rejection|value: Value)\)'
count_lines 4-passed-on 'Ok\((\w+)\) => Ok\(\1\)|Some\((\w+)\) => Some\(\2\)|None => None|Err\((\w+)\) => (return )?Err\('
count_lines 4-casts '\bas (u8|u16|u32|u64|usize|i32|i64|char)\b'
count_lines 5-requires '^\s*requires '
count_lines 5-travellers '\(?parser: &mut Parser<._>, table: &mut|text: &.a \[u8\], place: usize|draft: &Draft, reads: &\[u64\]|draft: &Draft, typing: &Typing'
count_lines 6-arrays '^\s*(pub(\(crate\))? )?[a-z_]+: \[.*; .*\],|static \[u8\], Token'
count_lines 7-switches 'fn (has|allows|character|fault)\('

# Point 2 of docs/DESIGN-PASS.md: pairs of places that share six lines or more, by the tool `duplicates`, which reads files named .rs.
if command -v duplicates >/dev/null && { [ -z "$list" ] || [ "$list" = 2-twins ]; }; then
    copies=$(mktemp -d)
    for file in "${sources[@]}"; do
        copy=$copies/$(cut -d/ -f2 <<<"$file")/$(cut -d/ -f4- <<<"$file" | tr / -)
        mkdir -p "$(dirname "$copy")"
        cp "$file" "${copy%.rt}.rs"
    done
    pairs=$(cd "$copies" && duplicates --most 200 --seconds 120 | grep -E '^D[0-9]+ ' || true)
    rm -rf "$copies"
    if [ -n "$list" ]; then
        printf '%s\n' "$pairs"
    else
        printf '%-22s %4d\n' 2-twins "$(printf '%s' "$pairs" | grep -c '' || true)"
    fi
fi

# Point 8 of docs/DESIGN-PASS.md: lines of proofs.
if [ -z "$list" ]; then
    printf '%-22s %4d\n' 8-proof-lines "$(find crates/*/proofs -name '*.antt' -exec cat {} + | wc -l)"
    printf '%-22s %4d\n' 8-answer-files "$(find crates/*/proofs -name Answers.antt | wc -l)"
    printf '%-22s %4d\n' 8-invariant-files "$(find crates/*/proofs -name Invariants.antt | wc -l)"
fi
