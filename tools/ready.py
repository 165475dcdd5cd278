#!/usr/bin/env python3
"""Two aliases in two proof files are spelled as names of today's library, and port.py takes a repository with such a name for a turned one.

usage: python3 tools/ready.py      at the top of the repository, once, before the toolchain's port.py; commit what it changes
"""
import re

ALIASES = {"value": ("value_at", "valueIn"), "seek": ("entry_of", "entryIn")}

for function, (old, new) in ALIASES.items():
    path = f"crates/message/proofs/Reader/{function}/Proof.antt"
    with open(path, encoding="utf-8") as f:
        text = f.read()
    text = re.sub(rf"(?m) as {old}$", f" as {new}", text)
    text = re.sub(rf"(?<![\w.`]){old}\.(ended|clauses)", rf"{new}.\1", text)
    with open(path, "w", encoding="utf-8") as f:
        f.write(text)
