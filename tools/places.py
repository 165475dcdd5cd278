#!/usr/bin/env python3
"""Lists where src/ may have an older form, by the points of docs/DESIGN-PASS.md. A hit is a line to read, not yet a place.

usage: python3 tools/places.py [FOLDER]     FOLDER: a checkout; this one if none is named. The last lines count the hits of each point.
"""
import glob
import os
import re
import sys
from collections import defaultdict

top = sys.argv[1] if len(sys.argv) > 1 else os.path.join(os.path.dirname(os.path.abspath(__file__)), "..")
files = sorted(glob.glob(os.path.join(top, "crates", "*", "src", "**", "*.rt"), recursive=True))
texts = {os.path.relpath(f, top): open(f, encoding="utf-8").read() for f in files}
counts = defaultdict(int)


def hit(point, what, where):
    counts[point] += 1
    print(f"{point}: {where}: {what}")


def lines(point, pattern, skip=r"^\s*(//|ensures|requires|ghost)"):
    for name, text in texts.items():
        for number, line in enumerate(text.split("\n"), 1):
            if re.search(pattern, line) and not re.search(skip, line):
                hit(point, line.strip(), f"{name}:{number}")


functions = []  # file, name, parameters, clauses, body
for name, text in texts.items():
    for it in re.finditer(r"^( *)(?:pub )?(?:extern \"C\" )?fn (\w+)(?:<[^>]*>)?\(([^)]*)\)", text, re.M):
        rest = text[it.end() :]
        one_line = re.match(r"([^\n{]*) \{\n(.*?)\n" + it[1] + r"\}", rest, re.S)
        below = re.search(r"^" + it[1] + r"\{\n(.*?)\n" + it[1] + r"\}", rest, re.S | re.M)
        if one_line:
            functions.append((name, it[2], it[3], one_line[1], one_line[2]))
        elif below:
            functions.append((name, it[2], it[3], rest[: below.start()], below[1]))

# 1: enums; flags; numbers that may stand for a kind or a refusal; places that may mean none
lines("1 enum", r"^\s*(pub )?enum ")
lines("1 flag", r"\b\w+: bool\b")
lines("1 number", r"const [A-Z_]+: u8 = [0-9]+;")
for name, function, parameters, clauses, body in functions:
    if re.match(r"\s*-> (usize|io::Result<usize>|io::Result<bool>)", clauses):
        hit("1 place", "fn " + function, name)
# 2: functions of one shape, but for names and numbers
shapes = defaultdict(list)
for name, function, parameters, clauses, body in functions:
    code = re.sub(r"//.*", "", body)
    shape = re.sub(r"\s+", " ", re.sub(r'b?"[^"]*"|b?\'[^\']*\'|\b\w+\b', lambda it: it[0] if it[0] in ("if", "for", "match", "return", "let", "mut") else "_", code))
    if len(shape) > 30:
        shapes[shape].append(f"{name} {function}")
for shape, found in sorted(shapes.items()):
    if len(found) > 1:
        hit("2 shape", ", ".join(found), str(len(found)))
# 3: loops that are no `for`
lines("3 loop", r"\b(while|loop)\b")
# 4: comparing, copying and answering by hand; plain types that don't derive equality
lines("4 by hand", r"(?<!fn )\b(same|same_long|copy|fill|keep|is_before)\(")
for name, text in texts.items():
    for it in re.finditer(r"\{\s*return (true|false);\s*\}", text):
        hit("4 ladder", it[0].split()[1] + " " + it[1], f"{name}:{text.count(chr(10), 0, it.start()) + 1}")
    for it in re.finditer(r"#\[derive\(([^)]*)\)\]\s*pub (struct|enum) (\w+)", text):
        if "PartialEq" not in it[1]:
            hit("4 derive", it[3], name)
    for it in re.finditer(r"(?:\w+: (\w+)\.\w+,\s*){3,}", text):
        hit("4 copied fields", it[1], f"{name}:{text.count(chr(10), 0, it.start()) + 1}")
# 5: facts that three contracts or more require; three parameters that four functions or more have
facts = defaultdict(int)
for text in texts.values():
    for it in re.finditer(r"^\s+requires (?:\w+ )?\{(.*?)\}$", text, re.S | re.M):
        for fact in it[1].split(" × "):
            facts[" ".join(fact.strip(" ()\n").split())] += 1
for fact, times in sorted(facts.items()):
    if times > 2:
        hit("5 fact", fact, f"{times} contracts")
groups = defaultdict(int)
for name, function, parameters, clauses, body in functions:
    names = [it for it in re.findall(r"(?:mut )?(\w+):", parameters)]
    for i in range(len(names)):
        for j in range(i + 1, len(names)):
            for k in range(j + 1, len(names)):
                groups[names[i], names[j], names[k]] += 1
for names, times in sorted(groups.items()):
    if times > 3:
        hit("5 together", ", ".join(names), f"{times} functions")
# 6: a width, a count or a length beside bytes; buffers
lines("6 beside", r"\b(width|count|kept|used|got): usize")
lines("6 buffer", r"= \[0u8; \w+")
# 7: a number or an enum that says which step to run
lines("7 switch", r"\b(check: Check|place: usize)\b")
# 8: proofs that walk the code by hand
for f in sorted(glob.glob(os.path.join(top, "crates", "*", "proofs", "**", "Proof.antt"), recursive=True)):
    hit("8 walk", f"{sum(1 for _ in open(f, encoding='utf-8'))} lines", os.path.relpath(f, top))

print()
for point in sorted(counts):
    print(f"{point}: {counts[point]}")
