#!/bin/sh
# Drives xenstore's own tools and pyxs, both from Debian, against the daemon, and compares what they print with the files in tests/clients.
# With --write those files are written anew.
set -eu
cd "$(dirname "$0")/.."
if ! command -v xenstore-read > /dev/null || ! /usr/bin/python3 -c 'import pyxs' 2> /dev/null; then
    echo 'clients: installing xenstore-utils and python3-pyxs'
    { apt-get -qq update && apt-get install -y -qq xenstore-utils python3-pyxs; } > /dev/null || { echo 'clients: apt-get cannot install them'; exit 1; }
fi
sh host/build.sh build/host/haabuvilkd
folder=$(mktemp -d)
daemon=
trap '[ -z "$daemon" ] || kill "$daemon" 2> /dev/null || true; rm -rf "$folder"' EXIT
export XENSTORED_PATH="$folder/socket"

# Runs a command against a daemon of its own.
against_daemon() {
    build/host/haabuvilkd --socket "$XENSTORED_PATH" 2> "$folder/log" &
    daemon=$!
    tries=0
    while [ ! -S "$XENSTORED_PATH" ] && [ $tries -lt 100 ]; do
        sleep 0.05
        tries=$((tries + 1))
    done
    "$@" > "$folder/out" 2>&1 || echo "status $?" >> "$folder/out"
    kill "$daemon"
    wait "$daemon" || { echo "clients: the daemon failed"; cat "$folder/log"; exit 1; }
    daemon=
}

hold_to() {
    if [ "${write:-}" ]; then
        cp "$folder/out" "$1"
    elif ! diff -u "$1" "$folder/out"; then
        echo "clients: $1 has something else"
        exit 1
    fi
}

[ "${1:-}" != --write ] || write=yes
against_daemon sh tests/clients/tools.sh
hold_to tests/clients/tools.expected
echo 'clients: xenstore-write, -read, -ls, -list, -exists, -chmod, -rm and -watch print what they should'
against_daemon timeout 60 /usr/bin/python3 tests/clients/transactions.py
hold_to tests/clients/transactions.expected
echo 'clients: pyxs: transactions, domains, entries, refusals and a monitor as they should be'
