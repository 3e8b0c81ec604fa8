#!/bin/sh
# The example of docs/HOST.md, compiled and run.
set -eu
cd "$(dirname "$0")/../.."
lib=${HAABUVILK_LIB:-target/staticlib}
mkdir -p build/host
awk '/^```c$/ { inside = 1; next } /^```$/ { inside = 0 } inside' docs/HOST.md > build/host/example.c
. host/x86-64.sh
"$CC" -std=c17 -Wall -Wextra -Werror -Iinclude -o build/host/example build/host/example.c "$lib/libhaabuvilk.a"
runnable build/host/example
awk '/^```text$/ { inside = 1; next } /^```$/ { inside = 0 } inside' docs/HOST.md > build/host/example.expected
build/host/example > build/host/example.out
cmp build/host/example.expected build/host/example.out
echo "host: the example of docs/HOST.md prints what the page says"
