#!/bin/sh
# Prints how many instructions a program takes inside haabuvilk_request: bench/count.sh PROGRAM WORDS. With no program: what counts them, or nothing.
# That is callgrind; on another processor than x86-64 it is the emulator, whose log has a line for each instruction, with its function.
set -eu
. "$(dirname "$0")/../host/x86-64.sh"
if [ $# -eq 0 ]; then
    [ -z "$emulator" ] || { echo "$emulator"; exit; }
    ! command -v valgrind > /dev/null || echo callgrind
elif [ -z "$emulator" ]; then
    valgrind --tool=callgrind --callgrind-out-file=/dev/null --toggle-collect=haabuvilk_request "$@" 2>&1 > /dev/null | sed -n 's/.*Collected : *//p'
else
    step=-singlestep
    ! $emulator -help | grep -q one-insn-per-tb || step=-one-insn-per-tb
    # What the call itself calls counts too: it is over where its caller goes on.
    $emulator $step -d exec,nochain "$@" 2>&1 > /dev/null | awk '
        $NF == "haabuvilk_request" && !inside { inside = 1; caller = last }
        inside && $NF == caller { inside = 0 }
        inside { count++ }
        { last = $NF }
        END { printf "%d\n", count }
    '
fi
