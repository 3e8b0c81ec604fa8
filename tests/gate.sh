#!/bin/sh
# rt's gate over the whole checkout, and then what it does not look at: whether each edit was refused at a fact, the review sheet, the rule edits,
# and the Rust and C tests on the archive of the same proof. rt's verdict is printed last, and only if all passed.
set -eu
cd "$(dirname "$0")/.."
unset HAABUVILK_LIB
said=$(mktemp -d)
trap 'rm -rf "$said"' EXIT
# What rt ci builds stays in the checkout only where nothing lies there that it has to put back.
was_there=$(find crates .git -maxdepth 2 \( -path 'crates/*/out' -o -path .git/rt-aside \) 2> /dev/null || true)
{ rt ci 2>&1 || touch "$said/failed"; } | tee "$said/ci" | sed -u '$d'
verdict=$(tail -n 1 "$said/ci")
if [ -e "$said/failed" ]; then
    echo "$verdict"
    exit 1
fi
ok=$(grep '^rt: ok' "$said/ci") || { echo 'gate: rt did not say that all is well'; exit 1; }
case $ok in
*', '[1-9]*' bad'*) echo 'gate: rt could not try some must-fail edits'; exit 1 ;;
esac
printf '%s\n' "$verdict" | grep -qx '[0-9]* passed, 0 failed' || { echo "gate: no verdict: $verdict"; exit 1; }
sh tests/edit-logs.sh "$said/ci"
sh tests/review-sheet.sh
sh tests/rule-edits.sh
if [ "$was_there" ]; then sh host/archive.sh; else sh host/archive.sh --after-ci; fi
sh tests/run.sh
echo "$verdict"
