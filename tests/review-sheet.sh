#!/bin/sh
# The code blocks of docs/REVIEW-SHEET.md, with an empty line between them, are what the program `sheet` prints.
set -eu
cd "$(dirname "$0")/.."
blocks=$(mktemp)
trap 'rm -f "$blocks"' EXIT
awk '
    /^```text$/ { if (seen) print ""; seen = 1; inside = 1; next }
    /^```$/ { inside = 0; next }
    inside { print }
' docs/REVIEW-SHEET.md > "$blocks"
cmp "$blocks" crates/sheet/stdout
echo "review sheet: the blocks are what the program prints"
