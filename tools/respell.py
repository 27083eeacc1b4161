#!/usr/bin/env python3
"""Brings this repository's own definitions and lemmas to the spelling of today's Rattle: words in snake case.

usage: tools/respell.py [--list]      at the top, once, right after the kit's port.py

A name that begins small and is in camel case, of specs/ or proofs/, becomes snake case everywhere in .rt, .antt and .edit files. A name
that would fall together with another is called as FALLS and DASHED say. Names of the kit stay: they are those that other crates' lines bring.
"""
import os
import re
import sys

TOP = "crates"
# Names that would fall together with another, and what they are called instead.
FALLS = {"indexFrom": "index_begins", "rowsFrom": "rows_begin"}
# Lemmas that the kit's script gave the name that a definition of the same file has now: they get their dash back.
DASHED = {
    "compiler/proofs/Listed.antt": ["block_start"],
    "instants/proofs/Executed.antt": ["moved_on", "goes_on"],
    "instants/proofs/Steps.antt": ["moved_on"],
    "shell/proofs/AtOnce.antt": ["no_number"],
}
WORD = re.compile(r"[A-Za-z_◌'′₀-₉0-9][A-Za-z0-9_'′₀-₉◌-]*")


def files():
    for folder, dirs, names in os.walk(TOP):
        dirs[:] = sorted(d for d in dirs if d != "out")
        for n in sorted(names):
            if n.endswith((".rt", ".antt", ".edit")):
                yield os.path.join(folder, n)


def read(p):
    with open(p, encoding="utf-8") as f:
        return f.read()


def snake(n):
    return re.sub(r"(?<=[a-z0-9'])([A-Z])", lambda m: "_" + m[1].lower(), n)


USE = re.compile(r"^(?:pub )?(?:ghost )?use ([^\s{;]+?)(?:\.\{([^}]*)\})?;?\s*$", re.M)
CAMEL = re.compile(r"^[a-z][a-z0-9_'-]*[A-Z]")


def mapping():
    """Each name in camel case of this repository, and its new one."""
    crates = set(os.listdir(TOP))
    kit, words = set(), set()
    for p in files():
        t = read(p)
        for m in USE.finditer(t):
            if not (m[1].startswith("Rattle.") and m[1].split(".")[1] in crates):
                kit |= set(re.split(r"[,\s]+", m[2] or m[1].split(".")[-1]))
        words |= {w for w in WORD.findall(t) if CAMEL.match(w) and "\u25cc" not in w}
    # A part of a lemma's name that names a fact keeps its capital, as in index-IsWord.
    return {w: FALLS.get(w, snake(w)) for w in words - kit if not re.search(r"-[A-Z]", w)}


def main():
    names = mapping()
    if "--list" in sys.argv:
        for n in sorted(names):
            print(n, names[n])
        return
    for p in files():
        t = old = read(p)
        for n in DASHED.get(os.path.relpath(p, TOP), []):
            t = re.sub(rf"(?<![\w.-]){n}(?![\w'-])", n.replace("_", "-"), t)
        t = WORD.sub(lambda m: names.get(m[0], m[0]), t)
        if t != old:
            with open(p, "w", encoding="utf-8") as f:
                f.write(t)


if __name__ == "__main__":
    main()
