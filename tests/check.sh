#!/bin/sh
# The gate's checks over what changed since a revision, for work between landings: tests/check.sh [REV]. What rt has proved before is not proved again.
# Without REV: since this branch left origin/main, or since the commit before the last one where there is no origin/main.
# A crate has changed if one of its files or its line of crates.txt has; the layout and the must-fail edits of the changed crates alone are looked at,
# and the rule edits are tried if the rules, the laws or the edits themselves have changed.
set -eu
cd "$(dirname "$0")/.."
unset HAABUVILK_LIB
base=${1:-$(git merge-base HEAD origin/main 2> /dev/null || echo HEAD~1)}
git rev-parse -q --verify "$base^{commit}" > /dev/null || { echo "check: there is no revision $base: make check BASE=REV names another"; exit 1; }
since=$(git rev-parse --short "$base^{commit}")
files=$(git diff --name-only --no-renames "$base"; git ls-files --others --exclude-standard)
copy=$(mktemp -d)
step='the start'
trap 'status=$?; rm -rf "$copy"; [ "$status" -eq 0 ] || echo "check: FAILED since $since, at: $step"' EXIT

# Whether a file whose name begins so has changed.
changed() {
    printf '%s\n' "$files" | grep -q "^$1"
}

# A crate's line of crates.txt.
line_of() {
    sed -n "s/ *#.*//; /^$1[ :]/p"
}

# Lays the changed crates out in a copy, and says what moved there.
look_at_layout() {
    for crate in $crates; do
        mkdir "$copy/$crate"
        for part in src specs proofs; do
            [ ! -d "crates/$crate/$part" ] || cp -r "crates/$crate/$part" "$copy/$crate"
        done
        (cd "$copy/$crate" && rt fmt) > "$copy/said" 2>&1 || { cat "$copy/said"; return 1; }
        ! grep -q '^rt: formatted' "$copy/said" || { sed -n "s|^rt: formatted |check: not laid out: crates/$crate/|p" "$copy/said"; return 1; }
    done
}

# shellcheck disable=SC2086
try_edits() {
    { rt must-fail $crates 2>&1 || touch "$copy/failed"; } | tee "$copy/edits"
    [ ! -e "$copy/failed" ] || return 1
    sh tests/edit-logs.sh "$copy/edits" $crates
}

crates=
others=0
edits=0
for crate in $(sh tests/order.sh); do
    if changed "crates/$crate/" || [ "$(line_of "$crate" < crates.txt)" != "$(git show "$base:crates.txt" | line_of "$crate")" ]; then
        crates="$crates $crate"
        edits=$((edits + $(find "crates/$crate" -path '*/must-fail/*.edit' | wc -l)))
    else
        others=$((others + 1))
    fi
done
echo "check: since $since changed:${crates:- no crate}"

step='layout'
look_at_layout
step='review sheet'
sh tests/review-sheet.sh
checked='layout, review sheet'
skipped=

step='rule edits'
if changed crates/rules/ || changed crates/laws/ || changed tests/rule-edits; then
    sh tests/rule-edits.sh
    checked="$checked, rule edits"
else
    skipped='rule edits, '
fi

step='proofs'
sh tests/prove.sh
checked="$checked, proofs and programs"

step='must-fail edits'
if [ $edits -gt 0 ]; then
    try_edits
    checked="$checked, must-fail edits of$crates ($edits)"
fi
skipped="${skipped}must-fail edits of the crates that did not change ($others)"

step='the Rust and C tests'
sh host/archive.sh
sh tests/run.sh
echo "check: passed since $since: $checked, the Rust and C tests; skipped: $skipped"
