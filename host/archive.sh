#!/bin/sh
# The proved library, target/staticlib/libhaabuvilk.a: proved and written, unless it is there and of the crates as they are now.
# With --after-ci, where rt ci has just passed in a checkout that had nothing of rt's before: over the libraries that it left there, so that they
# are not proved once more; where that can't be done, from the beginning.
set -eu
cd "$(dirname "$0")/.."
archive=target/staticlib/libhaabuvilk.a
made=crates/haabuvilk_c/out/libhaabuvilk_c.a
crates=$(sh tests/order.sh haabuvilk_c)

# What the library is made of.
sources() {
    {
        rt version
        cat crates.txt
        for crate in $crates; do
            find "crates/$crate/src" "crates/$crate/specs" "crates/$crate/proofs" -type f -exec sha256sum {} + 2> /dev/null | sort
        done
    } | sha256sum
}

# Whether the libraries below are there, as rt ci leaves them: rt's other commands put a stamp beside theirs.
are_of_ci() {
    for crate in $crates; do
        [ "$crate" != haabuvilk_c ] || continue
        [ -e "crates/$crate/out/rlib/$crate.rlib/format" ] && [ ! -e "crates/$crate/out/rlib/stamp" ] || return 1
    done
}

# Proves the exports over the libraries below as they are built, and writes the archive.
build_over_ci() {
    kit=$(dirname "$(rt doc)")
    set -- --extern "std=$kit/rlibs/std.rlib" -L "dependency=$kit/rlibs"
    for crate in $crates; do
        [ "$crate" != haabuvilk_c ] || continue
        set -- "$@" -L "dependency=$PWD/crates/$crate/out/rlib"
    done
    for crate in $(sed -n 's/^haabuvilk_c staticlib: *//p' crates.txt); do
        set -- "$@" --extern "$crate=$PWD/crates/$crate/out/rlib/$crate.rlib"
    done
    mkdir -p crates/haabuvilk_c/out
    (
        cd crates/haabuvilk_c
        "$kit/bin/rattle" build --crate-name haabuvilk_c src/lib.rt "$@" \
            --antt-project "$kit/rattle/logic/antt-project.json" --logic-built "$kit/logic_built" --jobs 2 \
            --links haabuvilk_c= --crate-type staticlib --toolchain "$kit/toolchain" --backend llvm -o out/libhaabuvilk_c.a
    ) > build/archive.out 2>&1
}

before=$(sources)
[ "$(cat build/archive.sum 2> /dev/null)" != "$before $(sha256sum $archive 2> /dev/null)" ] || exit 0
mkdir -p build target/staticlib
rm -f $made
{ [ "${1:-}" = --after-ci ] && are_of_ci && build_over_ci; } || sh tests/prove.sh haabuvilk_c
cp $made $archive
echo "proof: $archive is written"
echo "$before $(sha256sum $archive)" > build/archive.sum
