#!/usr/bin/env python3
"""Spells this repository's own definitions and lemmas as today's Rattle does: words in snake case, types in camel case.
usage: tools/respell.py [FOLDER]     once, right after the kit's port.py, at the top of the repository or of FOLDER

Each row of respelled.tsv beside this script has a name, its new spelling, and `all` or `bare`: a bare name behind a dot
is another one and stays. In .antt files code and comments turn; in .rt files names in lower camel case, and with a dash
those that `ghost use` and clauses have.
"""
import os
import re
import sys

here = os.path.dirname(os.path.realpath(__file__))
top = sys.argv[1] if len(sys.argv) > 1 else os.path.join(here, "..")
everywhere, bare = {}, {}
with open(os.path.join(here, "respelled.tsv"), encoding="utf-8") as rows:
    for row in rows:
        old, new, where = row.rstrip("\n").split("\t")
        (everywhere if where == "all" else bare)[old] = new
token = re.compile(r"""--[^\n]*|//[^\n]*|[^\s(){}.;,@"«»\[\]]+""")
word = re.compile(r"[a-z]+(?:[0-9a-z₀-₉]*[A-Z][0-9a-zA-Z]*)+(?![\w-])")


def comment(text):
    return word.sub(lambda m: everywhere.get(m[0], m[0]), text)


def turned(text, lemmas):
    def one(m):
        it = m[0]
        if it.startswith(("--", "//")):
            return comment(it)
        behind = m.start() > 0 and text[m.start() - 1] == "."
        tail = "" if it in everywhere or not it.endswith(":") else ":"
        name = it[: len(it) - len(tail)]
        if name in everywhere:
            return everywhere[name] + tail
        if lemmas and not behind and name in bare:
            return bare[name] + tail
        return it

    return token.sub(one, text)


for folder, folders, files in os.walk(os.path.join(top, "crates")):
    folders[:] = sorted(f for f in folders if f != "out")
    for name in sorted(files):
        if not name.endswith((".rt", ".antt")):
            continue
        path = os.path.join(folder, name)
        with open(path, encoding="utf-8") as f:
            old = f.read()
        new = turned(old, name.endswith(".antt"))
        if new != old:
            with open(path, "w", encoding="utf-8") as f:
                f.write(new)
