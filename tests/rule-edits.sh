#!/bin/sh
# Edits of the rule book that the laws must refuse. rt tries an edit on its own crate alone, so here each is made in a copy of both crates.
# The worked lines are left out of the copy: they refuse most of these edits too, and then the laws would not be asked.
set -eu
cd "$(dirname "$0")/.."
copy=$(mktemp -d)
trap 'rm -rf "$copy"' EXIT

# The crates as they stand, in a repository of their own. What rt keeps there of the last edit's try stays, so that it proves only what differs.
lay_out() {
    for crate in rules laws; do
        mkdir -p "$copy/crates/$crate"
        for part in src specs proofs; do
            rm -rf "$copy/crates/$crate/$part"
            cp -r "crates/$crate/$part" "$copy/crates/$crate"
        done
    done
    rm "$copy/crates/rules/proofs/WorkedLines.antt"
    sed -i '/WorkedLines/d' "$copy/crates/rules/proofs/Lib.antt"
    printf 'rules:\nlaws: rules\n' > "$copy/crates.txt"
}

# Makes the edit $1 in the copy.
make_edit() {
    file=$(sed -n 's/^file: //p' "$1")
    awk -v old="$(sed -n 's/^old: //p' "$1")" -v new="$(sed -n 's/^new: //p' "$1")" '
        { at = index($0, old) }
        at { n++; $0 = substr($0, 1, at - 1) new substr($0, at + length(old)) }
        { print }
        END { if (n != 1) exit 1 }
    ' "$file" > "$copy/edited" || { echo "rule edits: $name: its old text does not stand in $file once"; exit 1; }
    mv "$copy/edited" "$copy/$file"
}

not_by_a_law() {
    echo "rule edits: $name: refused, but not by a law:"
    grep -m 3 error "$1" || tail -n 3 "$1"
    exit 1
}

refused=0
for edit in tests/rule-edits/*.edit; do
    name=$(basename "$edit" .edit)
    lay_out
    make_edit "$edit"
    # The rule book without its worked lines takes the edit.
    (cd "$copy/crates/rules" && rt lib) > "$copy/rules.log" 2>&1 || not_by_a_law "$copy/rules.log"
    status=0
    (cd "$copy/crates/laws" && rt check) > "$copy/laws.log" 2>&1 || status=$?
    [ $status -ne 0 ] || { echo "rule edits: $name: NOT refused"; exit 1; }
    # The first error stands in a law's proof, and is none of reading it.
    first=$(grep -m 1 ': error' "$copy/laws.log" || true)
    law=$(printf '%s\n' "$first" | sed -n 's/^\(\.\/\)\{0,1\}proofs\/\([A-Za-z]*\)\.antt:[0-9]*:[0-9]*: error: `\([^`]*\)`.*/\2: \3/p')
    case $first in
    *'is not in scope'* | *'has no field'* | *'has no `'*) law= ;;
    esac
    [ $status -eq 1 ] && [ "$law" ] || not_by_a_law "$copy/laws.log"
    echo "rule edits: $name: refused by $law"
    refused=$((refused + 1))
done
echo "rule edits: $refused refused by the laws"
