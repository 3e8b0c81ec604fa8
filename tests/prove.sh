#!/bin/sh
# Proves NAMES and the crates that they need, with a line for each in place of a page: tests/prove.sh NAMES. With no name: all crates.
# A line says which crate is being proved, how far that is, how long its last proof took (build/proof-times keeps it) and how it went.
# Of a static library the archive is written too, and a program is run and held to its file stdout. What rt has proved before is not proved again.
# What rt says of a crate is printed only if it fails, and then nothing more is tried.
set -eu
cd "$(dirname "$0")/.."
mkdir -p build
times=build/proof-times
output=build/proof.out
touch $times
crates=$(sh tests/order.sh "$@")
count=$(echo "$crates" | wc -w)
at=0

# Proves the crate $1, and sets `how` if it fails.
prove() {
    how='NOT PROVED'
    if [ ! -f "crates/$1/src/main.rt" ]; then
        (cd "crates/$1" && rt lib) > $output 2>&1 || return 1
        return 0
    fi
    input="crates/$1/stdin"
    [ -f "$input" ] || input=/dev/null
    (cd "crates/$1" && rt run) < "$input" 2> $output > build/printed || return 1
    how='WRITES SOMETHING ELSE'
    cmp build/printed "crates/$1/stdout" >> $output 2>&1
}

for crate in $crates; do
    at=$((at + 1))
    seconds=$(sed -n "s/^$crate //p" $times)
    printf 'proof: %d of %d: %s%s: ' $at "$count" "$crate" "${seconds:+ ($seconds s last time)}"
    began=$(date +%s)
    if ! prove "$crate"; then
        echo "$how"
        cat $output
        echo "proof: FAILED: $crate"
        exit 1
    fi
    # Where it was proved, rt's verdict is there.
    if grep -q '^logic=proved' $output; then
        seconds=$(($(date +%s) - began))
        echo "proved in $seconds s"
        { grep -v "^$crate " $times || true; echo "$crate $seconds"; } > $times.new
        mv $times.new $times
    else
        echo unchanged
    fi
done
