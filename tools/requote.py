#!/usr/bin/env python3
"""Brings the names and the quotations of docs/PROMISES.md to what the files of crates/ have now.

usage: python3 tools/requote.py      at the top of the repository, after names or clauses were spelled anew; then scripts/promises.py says what is left

A name in back quotes that no longer exists gets its spelling of tools/respelled.tsv, or its words in snake case. A quotation is taken anew, definition by
definition and contract by contract, from the file that it names. What is not found stays, and is printed.
"""
import os
import re
import sys

sys.path.insert(0, os.path.join(os.path.dirname(os.path.abspath(__file__)), "..", "scripts"))
sys.dont_write_bytecode = True
import promises

PAGE = "docs/PROMISES.md"
TABLE = "tools/respelled.tsv"


def spellings(name, table):
    """The spellings that a name may have now."""
    snake = re.sub(r"(?<=[a-z0-9])([A-Z])", lambda m: "_" + m[1].lower(), name).replace("-", "_").replace("′", "'")
    found = [table.get(name, name), snake, name]
    return found + [it + "_lem" for it in found]


def named(name, table):
    """A name as it exists now."""
    path, _, word = name.partition("#")
    for new in spellings(word, table) if word and not promises.exists(name) else []:
        if promises.exists(path + "#" + new):
            return path + "#" + new
    if not promises.exists(name):
        print("not found:", name)
    return name


def prose(text, table):
    text = re.sub(r"`([^`\n]+)`", lambda m: "`" + named(m[1], table) + "`", text)
    return re.sub(r"(?<![\w#/`-])[A-Z]\w*(?:-\w+)+(?![\w`])", lambda m: table.get(m[0], m[0]), text)


def requoted(file, paragraph, table):
    """A paragraph of a quotation as its file has it now."""
    source = promises.text(promises.CRATES / file) or ""
    if promises.holds(source, paragraph):
        return paragraph
    if file.endswith(".rt"):
        functions = re.findall(promises.FUNCTION, paragraph, re.M)
        found = [contract for name, at, contract in promises.contracts() if at == file and name.split("::")[-1] in functions]
    else:
        have = promises.definitions(file)
        names = [[new for new in spellings(name, table) if new in have] for name in re.findall(promises.DEFINITION, paragraph, re.M)]
        found = [have[new[0]] for new in names if new]
    if not found:
        print("not found: a quotation of %s: %s" % (file, paragraph.splitlines()[0]))
    return "\n\n".join(dict.fromkeys(found)) or paragraph


def quotation(file, text, table):
    return "\n\n".join(requoted(file, paragraph, table) for paragraph in re.split(r"\n\n+(?=\S)", text.strip("\n")))


def main():
    with open(TABLE, encoding="utf-8") as f:
        table = dict(line.rstrip("\n").split("\t") for line in f)
    with open(PAGE, encoding="utf-8") as f:
        parts = re.split(r"^(```\S+\n.*?^```$)", f.read(), flags=re.M | re.S)
    for at, part in enumerate(parts):
        block = re.fullmatch(r"```(\S+)\n(.*?)```", part, re.S)
        parts[at] = "```%s\n%s\n```" % (block[1], quotation(block[1], block[2], table)) if block else prose(part, table)
    with open(PAGE, "w", encoding="utf-8") as f:
        f.write("".join(parts))


main()
