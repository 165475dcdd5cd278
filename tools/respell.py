#!/usr/bin/env python3
"""Brings the repository's own definitions, statements and lemmas to the spelling of today's Rattle.

usage: python3 tools/respell.py      at the top of the repository, once, after the toolchain's port.py

Reads tools/respelled.tsv, a line for each name: the old one, a tab, the new one. Words are in snake case, types and statements in camel
case; a lemma that would have its definition's name ends in _lem. Replaces whole names in crates/*/src, specs, proofs and must-fail.
Names of functions, exported names, strings, inputs and outputs stay.
"""
import os
import re

TABLE = "tools/respelled.tsv"
NAME = re.compile(r"(?<![\w'-])[A-Za-z_][\w'-]*")
# Lemmas that have the spelling already and stand in the way of a definition. In .antt alone, and not as the part of a path: the code has functions of these names.
LEMMAS = {"digit_at": "digit_at_lem", "left_by": "left_by_lem", "row_fits": "row_fits_lem"}


def respelled(text, table, more):
    def one(m):
        name = m.group()
        if name in more and text[m.start() - 1 : m.start()] != ".":
            return more[name]
        return table.get(name, name)

    return NAME.sub(one, text)


def main():
    with open(TABLE, encoding="utf-8") as f:
        table = dict(line.rstrip("\n").split("\t") for line in f)
    changed = 0
    for folder, dirs, files in os.walk("crates"):
        dirs[:] = sorted(d for d in dirs if d != "out")
        for name in sorted(files):
            if not name.endswith((".rt", ".antt", ".edit")):
                continue
            path = os.path.join(folder, name)
            with open(path, encoding="utf-8", newline="") as f:
                text = f.read()
            new = respelled(text, table, LEMMAS if name.endswith(".antt") else {})
            if new != text:
                with open(path, "w", encoding="utf-8", newline="") as f:
                    f.write(new)
                changed += 1
    print(f"respell: {len(table)} names, {changed} files changed")


main()
