#!/bin/sh
# Builds the daemon: host/build.sh OUT [FLAGS]. The archive is that of target/staticlib, or of the folder HAABUVILK_LIB.
set -eu
cd "$(dirname "$0")/.."
lib=${HAABUVILK_LIB:-target/staticlib}
[ -f "$lib/libhaabuvilk.a" ] || { echo "$lib/libhaabuvilk.a is missing: make archive writes it"; exit 1; }
out=$1
shift
mkdir -p "$(dirname "$out")"
. host/x86-64.sh
"$CC" -std=c17 -D_GNU_SOURCE -Wall -Wextra -Wconversion -Werror -O2 "$@" -Iinclude -o "$out" host/*.c "$lib/libhaabuvilk.a"
runnable "$out"
