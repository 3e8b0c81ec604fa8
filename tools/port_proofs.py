#!/usr/bin/env python3
"""Turns each function's Proof.antt of the older form into Invariants.antt and Answers.antt, once, behind port.py and port_names.py.

usage: rt names OUT; python3 tools/port_proofs.py OUT [CRATE..]      at the top of the repository

OUT has, for each function, its goals, steps and places under their older and today's names. A chain of `.before`s is followed back to the place that it
means, and what it says there gets today's name, as `c.before.before.if1.true` becomes `c.if-half-n.true`. What it cannot turn it prints.
"""

import json
import os
import re
import sys

WORD = r"[^\s(){}\[\];,\"«»@]+"
TOKEN = re.compile(r'--[^\n]*|"(?:[^"\\\n]|\\.)*"|' + WORD + r"|.", re.S)
# What a test by `!` says has a name of its own today.
NOTS = re.compile(r"\(not-(?:true|false) _ (c\.[^\s()]*)\.(true|false)-raw\)|\bnot-(?:true|false) _ (c\.[^\s()]*)\.(true|false)-raw")
said = []


def norm(s):
    s = s.replace("_", "-").lower() if not s.startswith("In-") else s.replace("_", "-")
    s = re.sub(r"-lem(?=$|\d|-)", "", s)
    s = re.sub(r"^overflow-", "", s)
    return s.replace("slice-bounds-", "part-").replace("nonzero-div-", "div-").replace("nonzero-rem-", "rem-").replace("slice-aggregate-", "agg-").replace("bounds-", "")


class Function:
    def __init__(self, crate, path, names, folder):
        self.crate, self.path, self.folder, self.names = crate, path, folder, names
        self.lemmas = {}
        self.places = {}
        for k, (name, before, step, callee, fields) in enumerate(names["places"]):
            arm = names["arms"][k]
            self.places[norm(name)] = {
                "name": "I" + arm[0][1:] if arm else names["places_by_name"][k], "before": before and norm(before), "old": norm(step[0]), "new": step[1],
                "callee": callee, "fields": {norm(a): b for a, b in fields}, "arms": names["arms"][k], "clauses": names["clauses"][k],
                "typed": {norm(s): v for v, s in names["typed"][k]},
            }
        self.needs = {}
        for k, (old, new) in enumerate(names["needs"]):
            self.needs[norm(old)] = (new, norm(names["asked_at"][k][0]))
        self.loops = {norm(l[0][0]): (l[0][1], l[1], names["changed"][k]) for k, l in enumerate(names["loops"])}

    def say(self, *it):
        said.append((self.crate, ".".join(self.path), *it))


def items(text):
    """The top-level items: each begins at a line with no indent, a definition has its clauses, and a comment goes with what follows it."""
    out, cur, name = [], [], None
    for line in text.split("\n"):
        if line and not line[0].isspace() and line[0] not in ")}]":
            words = [w for w in line.split() if w not in ("pub", "abbrev", "unfoldable")]
            goes_on = name and (words[0] == name or words[0] == "unfolding")
            if not goes_on and cur and not all(l.startswith("--") or not l for l in cur):
                out.append("\n".join(cur).rstrip())
                cur, name = [], None
            if not goes_on and not line.startswith("--"):
                name = words[0] if words[0] != "use" else None
        cur.append(line)
    if cur:
        out.append("\n".join(cur).rstrip())
    return [o for o in out if o.strip()]


def tokens(text):
    return TOKEN.findall(text)


class Turner:
    """Rewrites an expression. env maps a variable to (the name that it has now, its place)."""

    def __init__(self, f, env, goal_at, renamed, values=None, takers=None):
        self.f, self.env, self.goal_at, self.renamed, self.values = f, dict(env), goal_at, renamed, values or {}
        self.takers = takers or {}
        self.home = next(iter(self.env.values()), ("c", "start"))

    def line(self, place):
        """A place and those before it, up to the start."""
        out = []
        while place is not None and place in self.f.places:
            out.append(place)
            place = self.f.places[place]["before"]
        return out

    def walk(self, now, place, fields):
        k = 0
        while k < len(fields) and fields[k] == "before":
            before = self.f.places[place]["before"] if place in self.f.places else None
            place = before or place
            k += 1
        return now, place, fields[k:]

    def expr(self, s, at):
        """A place that stands at s[at:]: (its variable, the place, fields behind it, the end), or None."""
        if at < len(s) and s[at] == "(":
            got = self.expr(s, at + 1)
            if not got or got[2] or got[3] >= len(s) or s[got[3]] != ")":
                return None
            m = re.match(r"(?:\." + WORD + r")?", s[got[3] + 1 :])
            now, place, rest = self.walk(got[0], got[1], [x for x in m[0].split(".") if x])
            return now, place, rest, got[3] + 1 + m.end()
        m = re.match(WORD, s[at:])
        if not m or (at and re.match(WORD, s[at - 1])):
            return None
        words = m[0].split(".")
        if m[0] in self.takers:
            if s[at + m.end() : at + m.end() + 1] != " ":
                return None
            got = self.expr(s, at + m.end() + 1)
            return got and not got[2] and (got[0], self.takers[m[0]], [], got[3]) or None
        if words[0] in self.env:
            return (*self.walk(*self.env[words[0]], words[1:]), at + m.end())
        return None

    def bare(self, now, place):
        own = next((p for n, p in self.env.values() if n == now), None)
        if place == self.home[1] and now == self.home[0]:
            return now
        if self.goal_at and now == "c":
            return f"(goal.at.{self.goal_at} {now}).{self.f.places[place]['name']}"
        line = self.line(self.home[1])
        if place in line:
            return now + ".before" * line.index(place)
        self.f.say("a bare place", now, place)
        return now

    def field(self, now, place, rest):
        first = norm(rest[0])
        if first in ("args", "requires", "well-formed", "lifetimes", "pre", "ranges", "shapes"):
            head = {"well-formed": "well_formed", "pre": "requires"}.get(first, first)
            return ".".join([now, head] + rest[1:])
        it = self.f.places[place]
        if first != it["old"]:
            line = self.line(self.home[1])
            here = line.index(place) if place in line else 0
            near = sorted((abs(k - here), k) for k, p in enumerate(line) if self.f.places[p]["old"] == first)
            if not near:
                near = sorted((abs(k - here), k) for k, p in enumerate(line) if self.f.places[p]["old"].rstrip("0123456789") == first.rstrip("0123456789"))
            if not near:
                self.f.say("no such step", place, it["old"], rest)
                return ".".join([now] + rest)
            it = self.f.places[line[near[0][1]]]
            first = it["old"]
        more = rest[1:]
        if it["arms"]:
            arm, _, fields = it["arms"]
            best = None
            for new, old, way in fields:
                if norm(old) == first and more[: len(way)] == way and (best is None or len(way) > len(best[1])):
                    best = (new, way)
            if best:
                return ".".join([now, arm, best[0]] + more[len(best[1]) :])
            self.f.say("arm field", place, rest, fields)
            return ".".join([now, arm] + more)
        if more and more[0] == "given":
            for p in [it, *self.f.places.values()]:
                if first in p["typed"]:
                    return ".".join([now, "type_inv", p["typed"][first]] + more[1:])
        if more and norm(more[0]) in it["fields"]:
            more = [it["fields"][norm(more[0])]] + more[1:]
        if it["callee"] and more and more[0] in ("new", "auto"):
            params = self.f.names["params"].get(it["callee"])
            n, k = 0, 1
            while k < len(more) and more[k] == "1":
                n, k = n + 1, k + 1
            if params and k < len(more) and more[k] == "0" and n < len(params):
                more = [more[0], params[n]] + more[k + 1 :]
        return ".".join([now, it["new"]] + more)

    def text(self, s):
        out, at = [], 0
        while at < len(s):
            m = re.match(r'--[^\n]*|"(?:[^"\\\n]|\\.)*"', s[at:])
            if m:
                out.append(m[0])
                at += m.end()
                continue
            m = re.match(r"let (" + WORD + r") = ", s[at:])
            if m and (at == 0 or not re.match(WORD, s[at - 1])):
                got = self.expr(s, at + m.end())
                end = got and re.match(r"\s+in\b[ \t]*(\n[ \t]*)?", s[got[3] :])
                if got and not got[2] and end:
                    self.env[m[1]] = (got[0], got[1])
                    at = got[3] + end.end()
                    continue
            m = re.match(WORD, s[at:])
            if m and m[0] in self.f.lemmas and (at == 0 or not re.match(WORD, s[at - 1])):
                got = self.expr(s, at + m.end() + 1)
                wants = self.f.lemmas[m[0]]
                if got and not got[2] and wants in self.line(self.home[1]):
                    out.append(self.renamed.get(m[0], m[0]) + " " + self.bare(got[0], wants))
                    at = got[3]
                    continue
            got = self.expr(s, at)
            if got:
                now, place, rest, at = got
                out.append(self.field(now, place, rest) if rest else self.bare(now, place))
                continue
            m = re.match(r"«[^»]*»(?:\." + WORD + r")?|" + WORD, s[at:])
            if m:
                words = m[0].split(".")
                out.append(".".join([self.values[words[0]]] + words[1:]) if words[0] in self.values else self.renamed.get(m[0], m[0]))
                at += m.end()
                continue
            out.append(s[at])
            at += 1
        return "".join(out)


def convert(f):
    p = os.path.join(f.folder, "Proof.antt")
    with open(p, encoding="utf-8") as it:
        text = it.read()
    if "tie." not in text or "tie.spec" not in text:
        f.say("is of another form")
        return
    module = f"Rattle.{f.crate}.proofs." + ".".join(f.path)
    head, uses, body = [], [], []
    for it in items(text):
        lines = it.split("\n")
        comments = [l for l in lines if l.startswith("--")] if lines[0].startswith("--") else []
        rest = "\n".join(lines[len(comments) :]).strip("\n")
        if rest.startswith(("use ", "pub use ")):
            if not uses and not body:
                head += comments
            if not re.search(r"\.(Statement\.\{statement\}|Tie as tie)\s*$", rest):
                uses.append(rest)
            continue
        if rest.strip():
            body.append((comments, rest))
        elif not uses and not body:
            head += comments
    renamed = {}
    needs = {}
    for comments, rest in body:
        m = re.match(r"(?:pub )?(" + WORD + r") : tie\.Need-(" + WORD + r")", rest)
        if m:
            key = norm(m[2])
            if key not in f.needs:
                for other in f.needs:
                    if other.replace("agg-", "part-") == key.replace("agg-", "part-"):
                        key = other
            if key in f.needs:
                renamed[m[1]] = f.needs[key][0]
                needs[m[1]] = f.needs[key]
            else:
                needs[m[1]] = None
                if not re.search(re.escape(m[1]) + r" c( κs)? = (search rules|refl|omega arith)\s*$", rest):
                    f.say("a need that is gone", m[1], m[2], rest[-200:])
    answers, invariants, places = [], [], set()
    takers = {}
    f.lemmas = {}
    for comments, rest in body:
        m = re.match(r"(?:abbrev |pub )*(" + WORD + r") :\s+(?:\(" + WORD + r" : )?tie\.(?!Need)(" + WORD + r")", rest)
        if m and norm(m[2]) in f.places:
            f.lemmas[m[1]] = norm(m[2])
    for comments, rest in body:
        m = re.match(r"(?:abbrev |pub )*(" + WORD + r") : tie\.(?!Need)" + WORD + r" → tie\.(?!Need)(" + WORD + r")\s", rest)
        if m and norm(m[2]) in f.places:
            takers[m[1]] = norm(m[2])
    for comments, rest in body:
        sig = re.match(r"(?:abbrev |pub |unfoldable )*(" + WORD + r")", rest)
        name = sig[1]
        if re.match(r"(pub )?" + re.escape(name) + r" : \{M : Type 1\} → statement M", rest):
            continue
        m = re.match(r"(?:abbrev )?(?:pub )?(invariant|decreases)-(" + WORD + r") : tie\.", rest)
        if m:
            invariants.append((comments, invariant(f, m[1], m[2], rest)))
            continue
        if name in takers:
            continue
        if name in needs:
            if needs[name] is None:
                continue
            new, at = needs[name]
            b = re.search(r"(?m)^" + re.escape(name) + r" c( κs)?((?: [^=\n]+)?) =(\s)", rest)
            if not b:
                f.say("an answer of another form", name, rest[:200])
                continue
            unfold = re.findall(r"(?m)^unfolding [^\n]*(?:\n    [^\n]*)*", rest[: b.start()])
            expr = rest[b.end() - 1 :]
            if expr.strip() == "search rules":
                continue
            tr = Turner(f, {"c": ("c", at)}, new, renamed, None, takers)
            expr = tr.text(expr)
            expr = NOTS.sub(lambda m: (m[1] or m[3]) + "." + (m[2] or m[4]), expr)
            if expr.strip() == "omega arith" and re.match(r"(overflow|bounds|slice_bounds|offset_bounds|nonzero)|.*-smaller$", new):
                continue
            lines = comments + [f"pub {new} : goal.{new}"] + unfold + [f"{new} c{b[2]} ={expr}"]
            answers.append("\n".join(lines))
            continue
        answers.append("\n".join(comments + [lemma(f, name, rest, renamed, places, takers)]))
    goals = f"use {module}.Goals as goal"
    if places:
        goals += f"\nuse {module}.Goals.{{{', '.join(sorted(places))}}}"
    if invariants:
        text = "\n".join(head + uses + [f"use {module}.Given as goal"]) + "\n\n" + "\n\n".join("\n".join(c + [t]) for c, t in invariants) + "\n"
        with open(os.path.join(f.folder, "Invariants.antt"), "w", encoding="utf-8") as it:
            it.write(text)
    if answers:
        text = "\n".join(head + uses + [goals]) + "\n\n" + "\n\n".join(answers) + "\n"
        with open(os.path.join(f.folder, "Answers.antt"), "w", encoding="utf-8") as it:
            it.write(text)
    os.remove(p)


def invariant(f, kind, loop, rest):
    key = norm(loop)
    if key not in f.loops:
        f.say("no such loop", loop, list(f.loops))
        return rest
    new, variables, changed = f.loops[key]
    b = re.search(r"(?m)^" + re.escape(f"{kind}-{loop}") + r"((?:\s+(?:«[^»]*»|" + WORD + r"))*?) =(\s)", rest)
    if not b:
        f.say("an invariant of another form", rest[:200])
        return rest
    args = b[1].split()
    want = [("l.initial." if c else "l.") + v for v, c in zip(variables, changed)] + ["l." + v for v, c in zip(variables, changed) if c]
    while len(args) > len(want) and any(re.fullmatch(r"t\d+", a) for a in args):
        args.remove(next(a for a in args if re.fullmatch(r"t\d+", a)))
    if len(args) != len(want):
        f.say("an invariant's arguments", kind, loop, args, want)
    tr = Turner(f, {}, None, {}, dict(zip(args, want)))
    unfold = re.findall(r"(?m)^unfolding [^\n]*(?:\n    [^\n]*)*", rest[: b.start()])
    return "\n".join([f"abbrev pub {kind}-{new} : goal.{kind}-{new}"] + unfold + [f"{kind}-{new} l ={tr.text(rest[b.end() - 1:])}"])


def lemma(f, name, rest, renamed, places, takers):
    """A lemma of the file's own. A place that it takes is one of Goals."""

    def new_place(m):
        it = f.places.get(norm(m[1]))
        if it is None:
            f.say("no such place", m[1])
            return m[0]
        places.add(it["name"])
        return it["name"]

    parts = re.split(r"(?m)^(?=(?:(?:abbrev|pub|unfoldable) )*" + re.escape(name) + r"(?: |$))", rest)
    parts = [x for x in parts if x]
    out = []
    for part in parts:
        is_sig = re.match(r"(?:(?:abbrev|pub|unfoldable) )*" + re.escape(name) + r" :", part)
        env = {}
        if is_sig:
            takes = []
            for m in re.finditer(r"\((" + WORD + r") : tie\.(?!Need)(" + WORD + r")[^)]*\)|\((?:" + WORD + r" )+: [^()]*(?:\([^()]*\)[^()]*)*\)|(?<=[:→] )tie\.(?!Need)(" + WORD + r")", part):
                place = m[2] or m[3]
                takes.append(norm(place) if place else None)
                if m[1] and norm(m[2]) in f.places:
                    env[m[1]] = (m[1], norm(m[2]))
            n = [0]
            part = re.sub(r"tie\.(?!Need)(" + WORD + r")(?: invariant-" + WORD + r" decreases-" + WORD + r")*", new_place, part)
            sig_takes = takes
        else:
            args = part[len(name) :].split("=")[0].split()
            k = 0
            for v in args:
                if k < len(sig_takes) and sig_takes[k] in f.places:
                    env[v] = (v, sig_takes[k])
                k += 1
        if "tie." in part:
            f.say("a lemma that speaks of the walk", name)
        out.append(Turner(f, env, None, renamed, None, takers).text(part))
    return NOTS.sub(lambda m: (m[1] or m[3]) + "." + (m[2] or m[4]), "".join(out))


def main(argv):
    out, only = argv[0], argv[1:]
    for c in sorted(os.listdir(os.path.join(out, "crates"))):
        if only and c not in only:
            continue
        with open(os.path.join(out, "crates", c, "names.json"), encoding="utf-8") as it:
            all_names = json.load(it)
        for key, names in all_names.items():
            m = re.fullmatch(r"Rattle-\w+-proofs\.(.*)\.Lts", key)
            if not m:
                continue
            path = m[1].split(".")
            folder = os.path.join("crates", c, "proofs", *path)
            if os.path.exists(os.path.join(folder, "Proof.antt")):
                convert(Function(c, path, names, folder))
    for it in said:
        print(*it)
    print(len(said), "places said")


main(sys.argv[1:])
