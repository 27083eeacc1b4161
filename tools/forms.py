#!/usr/bin/env python3
"""Counts the older forms that docs/DESIGN-PASS.md speaks of, in the repository whose top is named: tools/forms.py [TOP] [--twins]"""
import collections
import glob
import re
import sys

top = next((a for a in sys.argv[1:] if not a.startswith("--")), ".")
files = {f: open(f, encoding="utf-8").read() for f in sorted(glob.glob(f"{top}/crates/*/src/**/*.rt", recursive=True))}
lines = [(f, l) for f, s in files.items() for l in s.splitlines() if not l.lstrip().startswith("//")]


def crate(f):
    return f.split("/crates/")[1].split("/")[0]


def count(pattern, crates=None):
    return sum(bool(re.search(pattern, l)) for f, l in lines if crates is None or crate(f) in crates)


def twins(least=12):
    """Functions whose bodies are the same but for names and numbers, in groups; a body has so many words and signs at least."""
    groups = collections.defaultdict(list)
    words = {"let", "mut", "if", "else", "while", "for", "in", "match", "return", "true", "false", "as", "loop", "self"}
    for f, s in files.items():
        s = re.sub(r"//[^\n]*", "", s)
        for m in re.finditer(r"\bfn (\w+)", s):
            begin = re.compile(r"(^[ \t]*\{$|\{$)", re.M).search(s, m.end())
            if not begin:
                continue
            k = s.index("{", begin.start())
            depth, e = 0, k
            while True:
                depth += {"{": 1, "}": -1}.get(s[e], 0)
                e += 1
                if depth == 0:
                    break
            t = re.findall(r"[A-Za-z_]\w*|\d+|[^\sA-Za-z_0-9]", s[k:e])
            groups[" ".join(w if w in words or not re.match(r"\w", w) else "x" for w in t)].append((crate(f), m[1], len(t)))
    return [g for g in groups.values() if len(g) > 1 and g[0][2] >= least]


asked = collections.Counter()
many = 0
for f, s in files.items():
    asked.update(re.sub(r"\s+", " ", m[1]) for m in re.finditer(r"requires(?: \w+)? \{ ([^}]*) \}", s))
    for m in re.finditer(r"\bfn \w+(?:<(?:[^<>]|->|<[^<>]*>)*>)?\(([^()]*(?:\([^()]*\)[^()]*)*)\)", s):
        many += sum(":" in p or "self" in p for p in m[1].split(",")) >= 6
often = [n for n in asked.values() if n >= 3]
pairs = twins()
named = r"(SENSOR|ACTUATOR|INPUT|OUTPUT|PRIVATE|ALWAYS|INTERVAL|DISPATCH|IDLE)"
proofs = glob.glob(f"{top}/crates/*/proofs/**/*.antt", recursive=True)
told = [
    ("1 a flag or a number beside a value", count(r"^ +(pub )?[a-z_]+: bool,|^ +pub number: usize,")),
    ("1 numbers of refusals, kinds, instructions", count(rf"^ *pub const {named}: usize", ["cells"])
     + sum(bool(re.search(r"^ *pub const [A-Z_]+: usize = \d+;", l)) for f, l in lines if re.search(r"cells/src/refusals|code/src/numbers", f))),
    ("1 a number compared with acceptance", count(r"ACCEPTED < |!= refusals::ACCEPTED")),
    ("1 searches that answer the count where none", count(r"^ {4}n$")),
    ("2 groups of twins, functions in them", (len(pairs), sum(map(len, pairs)))),
    ("3 while and loop", count(r"^ *(while|loop)\b")),
    ("4 is, word, next, same, at_most, least, cap, of by hand", count(r"fn (is|word|next|same|at_most|least|cap|of)\(", ["cells", "readings", "text"])),
    ("4 as", count(r" as (usize|u8|u32|i32|u16|u64)\b")),
    ("5 clauses that three or more functions ask, and such functions", (len(often), sum(often))),
    ("5 functions of six and more parameters", many),
    ("6 arrays beside lengths", count(r"\[&\[i32\]; Program::TABLES\]|begins: \[|lens?: (usize|\[usize)")),
    ("7 a step by its number", count(r"match (place|number|form|kind|n|count) ")),
    ("8 files Answers, Invariants, lines of proofs", (sum(p.endswith("/Answers.antt") for p in proofs),
     sum(p.endswith("/Invariants.antt") for p in proofs), sum(len(open(p, encoding="utf-8").read().splitlines()) for p in proofs))),
    ("8 files that follow a chain of Lts", sum(bool(re.search(r"^use .*\.Lts$", open(p, encoding="utf-8").read(), re.M)) for p in proofs)),
    ("lines of src", sum(s.count("\n") for s in files.values())),
]
for what, n in told:
    print(f"{what}: {n if isinstance(n, int) else ', '.join(map(str, n))}")
if "--twins" in sys.argv:
    for g in sorted(pairs, key=len, reverse=True):
        print(len(g), ", ".join(f"{c}::{f}" for c, f, _ in g))
