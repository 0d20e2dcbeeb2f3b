#!/usr/bin/env python3
"""Respells this repository's own definitions and lemmas, once, right after the kit's port.py.

Words of specs/ and proofs/ are in snake case; a dash stays only where it joins the names of two definitions. The old and the
new names stand in respelled.txt. Functions of src/, strings, inputs and outputs keep their names: in .rt files only lines of
clauses and imports of definitions are read.

usage: python3 tools/respell.py [FOLDER]      FOLDER: the top of the checkout; by default the one that holds this file
"""

import os
import re
import sys

HERE = os.path.dirname(os.path.realpath(__file__))
# What may not stand beside a name: what belongs to it in antt. A step of a function's proof keeps its name: `.link-at`.
IN_NAME = r"[^\s(){};.,\[\]|λ:«»`]"
STEPS = {"link-at"}


def table():
    with open(os.path.join(HERE, "respelled.txt"), encoding="utf-8") as f:
        return dict(line.split() for line in f)


def respelled(text, names):
    def put(m):
        name = m.group(0)
        before = text[m.start() - 1] if m.start() else ""
        if name in STEPS and before == ".":
            return name
        return names.get(name, name)

    return re.sub(IN_NAME + "+", put, text)


def respell_source(text, names):
    """The lines of a .rt file that hold clauses: an arrow, a ghost item, or the middle of such."""
    out, depth = [], 0
    for line in text.split("\n"):
        clause = depth > 0 or re.match(r"\s*(pub )?(ghost|ensures|requires)\b", line)
        if clause:
            depth += line.count("{") - line.count("}")
            line = respelled(line, names)
        out.append(line)
    return "\n".join(out)


def main():
    top = sys.argv[1] if len(sys.argv) > 1 else os.path.dirname(HERE)
    names = table()
    for folder, dirs, files in os.walk(os.path.join(top, "crates")):
        dirs[:] = sorted(d for d in dirs if d != "out")
        for f in sorted(files):
            path = os.path.join(folder, f)
            if not f.endswith((".antt", ".rt")):
                continue
            with open(path, encoding="utf-8") as old:
                text = old.read()
            new = respelled(text, names) if f.endswith(".antt") else respell_source(text, names)
            if new != text:
                with open(path, "w", encoding="utf-8") as out:
                    out.write(new)


main()
