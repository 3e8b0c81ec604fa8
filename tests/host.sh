#!/bin/sh
# Builds the daemon plain and with the address and undefined-behaviour sanitizers, and drives each over its sockets; then the example of docs/HOST.md.
# The address sanitizer does not run under the emulator, so on another processor than x86-64 the second build has the other one alone.
set -eu
cd "$(dirname "$0")/.."
awk 'length > 120 { print "host: wider than 120 columns: " FILENAME ":" FNR; wide = 1 } END { exit wide }' host/*.[ch] tests/host/*.c
. host/x86-64.sh
sanitizers=${emulator:+undefined -static-libubsan}
sh host/build.sh build/host/haabuvilkd
sh host/build.sh build/host/haabuvilkd-sanitized -O1 -g -fsanitize=${sanitizers:-address,undefined} -fno-sanitize-recover=all
cc -std=c17 -D_GNU_SOURCE -Wall -Wextra -Wconversion -Werror -O2 -o build/host/drive tests/host/drive.c
folder=$(mktemp -d)
trap 'rm -rf "$folder"' EXIT
for kind in haabuvilkd haabuvilkd-sanitized; do
    mkdir "$folder/$kind"
    build/host/drive "build/host/$kind" "$folder/$kind" || { tail -n 20 "$folder/$kind/log"; exit 1; }
    echo "host: $kind passed${emulator:+ under $emulator}"
done
sh tests/host/example.sh
