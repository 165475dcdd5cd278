"""imports.py [--fix]: every name that a file of crates/ imports is used there.

A file of definitions or proofs has lines as
  use path.{name, name as other}   and   use path as other
and a file of code has, beside
  use path::name;                  which its code must use,
  ghost use path.{name};           which must be used by a clause of a contract, a ghost field (ghost name: { .. }), a ghost member (ghost name = { .. })
                                   or an attribute, as a bare name: a name with its path there (crate::specs::File::name) needs no import.
An operator is used where each of its parts stands, a trait of TRAITS where one of its methods is called. Words in comments and texts, fields (.name) and
labels (name = .. in braces) are no uses. What is passed on (pub use) is not judged, nor is a whole module (use path::*;). A variable of the same name hides
that an import is unused.

Prints file, line and name of each import that nothing uses, and fails if there is any. With --fix it takes them out of the files.
"""

import pathlib
import re
import sys

CRATES = pathlib.Path("crates")

USE = re.compile(r"^ *(pub |ghost )?use ([^\s{;]+?)(?:(?:\.|::)\{([^}]*)\})?(?: as ([^\s;]+))?;?\n", re.M)
# traits of the library that code imports for their methods
TRAITS = {"Read": r"\.read\w*\(", "Write": r"\.(?:write|flush)\w*\("}

# what only the proof reads in a file of code, up to where its braces or parentheses open
GHOST = re.compile(r"\b(?:requires|ensures)(?: \w+)? \{|\bghost \w+(?::| =) \{|#!?\[tactic\(")
TEXT = r'"(?:[^"\\\n]|\\.)*"'
IGNORED = {".antt": re.compile(TEXT + r"|(?<!\S)--[^\n]*"), ".rt": re.compile(TEXT + r"|b'(?:[^'\\]|\\.)'|//[^\n]*")}
LABEL = re.compile(r"([{;]\s*)[^\s(){};,.]+(?=\s+=\s)")
WORD = re.compile(r"(?<![^\s(){};,⌜⌝])[^\s(){};,.⌜⌝]+")


def in_proof(proof):
    """Whether a name, or each part of an operator, stands in a text of definitions or proofs."""
    words = set(WORD.findall(LABEL.sub(r"\1", proof)))
    return lambda name: name in words or "◌" in name and all(part in words for part in name.split("◌") if part)


def in_code(code):
    words = set(re.findall(r"\w+", code))
    return lambda name: name in words or name in TRAITS and re.search(TRAITS[name], code)


def ghost_parts(code):
    """What stands in contracts, ghost fields, ghost members and attributes, and the rest."""
    inside, outside, at = [], [], 0
    for opening in GHOST.finditer(code):
        end, depth = opening.end(), 1
        steps = {"{": 1, "}": -1} if opening.group().endswith("{") else {"(": 1, ")": -1}
        while depth:
            depth += steps.get(code[end], 0)
            end += 1
        inside.append(code[opening.end() : end - 1])
        outside.append(code[at : opening.start()])
        at = end
    return "\n".join(inside), "\n".join(outside) + code[at:]


def items(use):
    """What a line imports: each item as it is written, with the name that it gives."""
    path, names, alias = use.group(2, 3, 4)
    written = [item.strip() for item in names.split(",")] if names is not None else [alias or re.split(r"\.|::", path)[-1]]
    return [(item, item.split(" as ")[-1]) for item in written if item]


def unused(path, source):
    """Each line that imports what nothing uses, with its items that are unused."""
    body = IGNORED[path.suffix].sub(" ", USE.sub("\n", source))
    if path.suffix == ".rt":
        inside, outside = ghost_parts(body)
        is_used = {"ghost ": in_proof(inside), None: in_code(outside)}
    else:
        is_used = {None: in_proof(body)}
    for use in USE.finditer(source):
        how = use.group(1)
        idle = [] if how == "pub " else [item for item, name in items(use) if name != "*" and not is_used[how](name)]
        if idle:
            yield use, idle


def without(use, idle):
    """The line without these items."""
    left = [item for item, name in items(use) if item not in idle]
    return use.group().replace(use.group(3), ", ".join(left)) if left else ""


def main(fix):
    found = 0
    for path in sorted(p for p in CRATES.rglob("*") if p.suffix in IGNORED and "out" not in p.relative_to(CRATES).parts):
        source = path.read_text(encoding="utf-8")
        kept, at = [], 0
        for use, idle in unused(path, source):
            found += len(idle)
            for item in idle:
                print("%s:%d: %s" % (path, source.count("\n", 0, use.start()) + 1, item))
            kept += [source[at : use.start()], without(use, idle)]
            at = use.end()
        if fix and kept:
            path.write_text("".join(kept) + source[at:], encoding="utf-8")
    if found and not fix:
        sys.exit("imports: %d unused" % found)
    print("imports: %s" % ("%d taken out" % found if found else "each is used"))


if __name__ == "__main__":
    if sys.argv[1:] not in ([], ["--fix"]):
        sys.exit(__doc__)
    main(sys.argv[1:] == ["--fix"])
