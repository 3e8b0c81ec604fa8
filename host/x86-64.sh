# Sourced by the scripts that link the archive, which is x86-64 code: sets CC, and `emulator` where the machine has another processor.
# There a cross compiler, an emulator and, for cargo, Rust's library for x86-64 come from Debian's packages, and are installed if they are missing.
CC=${CC:-cc}
emulator=

# Makes a program that was linked ready to run: on another processor a script of its name that hands it to the emulator.
runnable() {
    [ -n "$emulator" ] || return 0
    mv "$1" "$1.x86-64"
    printf '#!/bin/sh\nexec %s "$0.x86-64" "$@"\n' "$emulator" > "$1"
    chmod +x "$1"
}

# Tells cargo what to build for.
rust_for_x86_64() {
    [ -n "$emulator" ] || return 0
    export CARGO_BUILD_TARGET=x86_64-unknown-linux-gnu
    export CARGO_TARGET_X86_64_UNKNOWN_LINUX_GNU_LINKER=$CC CARGO_TARGET_X86_64_UNKNOWN_LINUX_GNU_RUNNER=$emulator
    [ -d "$(rustc --print target-libdir --target $CARGO_BUILD_TARGET 2> /dev/null)" ] && return 0
    [ -d "$(/usr/bin/rustc --print target-libdir --target $CARGO_BUILD_TARGET 2> /dev/null)" ] || install_packages rustc-web libstd-rust-web-dev:amd64
    export RUSTC=/usr/bin/rustc
}

install_packages() {
    echo "x86-64: installing $*"
    { dpkg --add-architecture amd64 && apt-get -qq update && DEBIAN_FRONTEND=noninteractive apt-get install -y -qq --no-install-recommends "$@"; } > /dev/null || {
        echo "x86-64: apt-get cannot install them"
        exit 1
    }
}

if [ "$(uname -m)" != x86_64 ]; then
    CC=x86_64-linux-gnu-gcc
    emulator=qemu-x86_64
    command -v $CC > /dev/null && command -v $emulator > /dev/null && [ -e /lib64/ld-linux-x86-64.so.2 ] \
        || install_packages gcc-x86-64-linux-gnu libc6-dev-amd64-cross libc6:amd64 qemu-user
fi
