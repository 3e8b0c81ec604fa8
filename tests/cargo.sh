#!/bin/sh
# cargo for the programs that link the archive: tests/cargo.sh WORDS
set -eu
cd "$(dirname "$0")/.."
. host/x86-64.sh
rust_for_x86_64
exec cargo "$@"
