#!/bin/sh
# The Rust and C tests on the archive: the model's own tests, the archive held to the model, and the daemon.
set -eu
cd "$(dirname "$0")/.."
command -v cargo > /dev/null || { echo 'tests: cargo is missing'; exit 1; }
cargo test -q --release -p model
sh tests/cargo.sh run -q --release -p differential -- --calls 200000
sh tests/host.sh
echo 'tests: the model, the archive and the daemon passed'
