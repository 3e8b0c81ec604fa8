#!/usr/bin/env python3
"""Brings this repository's own definitions and lemmas to the spelling of today's Rattle, once, behind port.py.

usage: python3 tools/port_names.py [--list]      at the top of the repository; --list prints the names and writes nothing

A word is in snake case: `nodeAt` becomes `node_at`. A dash joins two names, so one before a plain word becomes `_`: `less-over` becomes `less_over`,
`drop-take` stays. Types, modules, constants of the source, exported names, strings and what stands in a proof's paths keep their spelling.
It goes over specs/, proofs/, the clauses of src/, the edits and the pages.
"""

import os
import re
import subprocess
import sys

WORD = r"[^\s(){}.;,@\"«»\[\]\\`]+"
PIECE = re.compile(r'"(?:[^"\\\n]|\\.)*"|' + WORD)
DEF = re.compile(r"(?m)^ *(?:(?:unfoldable|abbrev|pub) +)*(" + WORD + r")(?: +" + WORD + r")* +(?:[({][^\n]*)?:(?= |$)")
CONSTRUCTORS = re.compile(r"(?m)^(?:pub )?data [^\n]*\n((?:  [^\n]*\n)+)")
OTHERS = re.compile(r"(?m)^(?:pub )?use (?!Rattle\.(?!std\b))[^\n{]*\.\{([^}]*)\}")


def texts(*ends):
    for folder, dirs, files in os.walk("."):
        dirs[:] = sorted(d for d in dirs if d not in ("out", ".git", "target", "build") and os.path.join(folder, d) != "./docs/changes")
        for f in sorted(files):
            p = os.path.join(folder, f)[2:]
            if f.endswith(ends) and not p.startswith(("docs/PORT", "tools/")):
                yield p


def read(p):
    with open(p, encoding="utf-8") as f:
        return f.read()


def is_walk(p):
    return "/proofs/" in p and os.path.basename(p) == "Proof.antt"


def snake(part):
    if not re.match(r"[a-z]", part):
        return part
    part = re.sub(r"([a-z0-9])([A-Z]+)$", lambda m: m[1] + "_" + m[2].lower(), part)
    return re.sub(r"([a-z0-9])([A-Z])", lambda m: m[1] + "_" + m[2].lower(), part)


def defined(t):
    names = set(DEF.findall(t))
    for block in CONSTRUCTORS.findall(t):
        names |= set(re.findall(WORD, block))
    return {n for n in names if n not in ("module", "let", "use", "pub", ":", "→", "|") and re.match(r"[^\W\d]", n)}


def table():
    own, functions, foreign, needs = {}, set("length take drop set map reverse replicate get_or cond not flat_map".split()), set(), set()
    for p in texts(".antt"):
        t = re.sub(r"(?m)(^|\s)--[^\n]*", r"\1", read(p))
        for group in OTHERS.findall(t):
            foreign |= set(re.findall(WORD, group))
        names = defined(t)
        if is_walk(p):
            needs |= names
        else:
            for n in names:
                own.setdefault(n, p)
            if "/specs/" in p:
                functions |= {n for n in names if "-" not in n}
    functions = {snake(n) for n in functions} | {n for n in foreign if "-" not in n}
    functions -= set("a an and as at but by for from in is its not of on or so to too with".split())
    new = {n: n if n in foreign else joined(n, functions) for n in own}
    # A lemma that has a definition's name gets an ending.
    by_case = {new[n] for n in own if re.search(r"[a-z][A-Z]", n) and not n[0].isupper()}
    for n in own:
        if n not in foreign and not re.search(r"[a-z][A-Z]", n) and (new[n] in by_case or n != new[n] and new[n] in own):
            new[n] += "_lem"
    seen = {}
    for n in sorted(own):
        seen.setdefault(new[n], []).append(n)
    return {n: x for n, x in new.items() if n != x}, [x for x in seen.values() if len(x) > 1] + [[n, new[n]] for n in own if n != new[n] and new[n] in foreign]


def joined(name, functions):
    """A dash stays between two names, as long as no plain word came before."""
    parts = [snake(x) if x != "getD" else "get_or" for x in name.split("-")]
    out, plain = parts[0], False
    for k, x in enumerate(parts[1:], 1):
        plain = plain or not (x in functions and parts[k - 1] in functions)
        is_word = not x or re.match(r"[a-z]", x)
        out += ("_" if plain and is_word else "-") + x
    return out


def main():
    new, clash = table()
    if "--list" in sys.argv:
        for n, x in sorted(new.items()):
            print(n, x)
    for it in clash:
        print("these fall together:", *it)
    print(len(new), "names")
    if "--list" in sys.argv:
        return
    for p in texts(".antt", ".rt", ".edit", ".md"):
        t = read(p)
        ours = set() if not is_walk(p) else {n for n in defined(re.sub(r"(?m)(^|\s)--[^\n]*", r"\1", t))}
        if not p.endswith(".antt"):
            # A snake-cased word of code, an edit or a page is a function's name, and stays.
            ours |= {n for n in new if re.fullmatch(r"[a-z_0-9]+", n)}
        u = PIECE.sub(lambda m: m[0] if m[0][0] == '"' or m[0] in ours else new.get(m[0], m[0]), t)
        if u != t:
            with open(p, "w", encoding="utf-8") as f:
                f.write(u)


main()
