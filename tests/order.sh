#!/bin/sh
# Prints the crates that NAMES need, themselves among them, each after those that it stands on: tests/order.sh NAMES. With no name: all crates.
set -eu
cd "$(dirname "$0")/.."
sed 's/#.*//' crates.txt | awk -F: -v wanted="$*" '
    function visit(name,    needed, count, i) {
        if (name in level) return
        level[name] = 0
        count = split(needs[name], needed, " ")
        for (i = 1; i <= count; i++) {
            if (!(needed[i] in needs)) continue
            visit(needed[i])
            if (level[name] <= level[needed[i]]) level[name] = level[needed[i]] + 1
        }
        print level[name] ":" name
    }
    # The name may have a word behind it: staticlib.
    NF == 2 { split($1, words, " "); needs[words[1]] = $2; all = all " " words[1] }
    END {
        count = split(wanted == "" ? all : wanted, names, " ")
        for (i = 1; i <= count; i++) visit(names[i])
    }
' | sort -s -t: -n -k1,1 | cut -d: -f2
