"""edits.py [--index] PROMISES.md: each must-fail edit says what it tries, and was refused at the fact that it names.

An edit opens with a comment, of two lines at most:
  # NAME: WORDS. Refused at FACT of PLACE.
NAME is the function or the definition of its crate that rules the wrong answer out, written as in promises.py. FACT is the first that rt names as
refused: a goal of a proof, or a law. PLACE is the function that is proved there, or the file of proofs/ without its ending. Where the first is only a step
of a proof, the fact that the wrong answer breaks follows: ', then FACT of PLACE.' Of each edit rt names the first fact alone, so the second is not compared.
What the last 'rt ci' of the gate printed, target/rt.log, says what was refused.
The rows below TITLE in the document are made from the comments. --index writes them; without it they are compared.
"""

import collections
import functools
import itertools
import pathlib
import re
import sys
import textwrap

sys.dont_write_bytecode = True
from promises import CRATES, FUNCTION, exists

LOG = pathlib.Path("target/rt.log")
TITLE = "## Wrong answers that the gate tries"
WIDTH = 160

Comment = collections.namedtuple("Comment", "name words facts")
COMMENT = r"# (\S+): (.+)\. Refused at (\S+ of \w+(?:, then \S+ of \w+)?)\."
NAME = r"%s(::[a-z_0-9]+)*(::[A-Z]\w*)?::[a-z_0-9]+|%s/specs/[\w/]+\.antt#\S+"
# rt's words: the first that was refused of each edit; a goal or a law of a file of proofs/, itself or by what depends on it; a goal that the toolchain's own
# search leaves open, at the line of the function
REFUSED = r"^rt: must-fail (\w+/[\w.-]+)\.edit: refused, as it must be: (.*)$"
GOAL = r"\./proofs/(?:\S*?/)??(\w+)(?:/(?:Proof|Answers|Invariants))?\.antt:\d+:\d+: error: (?:\d+ declarations? that depends? on )?`([^`]+)`"
ALONE = r"note: (src/\w+\.rt):(\d+):\d+: (?:it is not proved that .*|`search` found no proof) \(`([^`]+)`\)"


def crates():
    """The crates, in the order of crates.txt."""
    return re.findall(r"^(\w+)[^:#\n]*:", pathlib.Path("crates.txt").read_text(encoding="utf-8"), re.M)


def edits():
    return [edit for crate in crates() for edit in sorted((CRATES / crate / "must-fail").glob("*.edit"))]


def comment_lines(edit):
    """The lines before the first that the toolchain reads."""
    return re.split(r"^(?:file|old|new):", edit.read_text(encoding="utf-8"), flags=re.M)[0].splitlines()


def comment(edit):
    """What an edit says of itself, or None."""
    said = re.fullmatch(COMMENT, "# " + " ".join(line.removeprefix("# ") for line in comment_lines(edit)))
    return said and Comment(*said.groups())


@functools.cache
def refusals():
    """What rt printed of each edit that was refused."""
    return dict(re.findall(REFUSED, LOG.read_text(encoding="utf-8"), re.M))


def refused(edit):
    """The fact that rt names of an edit; where it names none, what it printed."""
    printed = refusals().get("%s/%s" % (edit.parts[1], edit.stem), "nothing that was refused")
    goal, alone = re.match(GOAL, printed), re.match(ALONE, printed)
    if goal:
        return "%s of %s" % (goal[2], goal[1])
    if alone:
        # (an edit replaces one line by one line, so the function is the last that begins up to there; it begins with its attributes)
        lines, last = (CRATES / edit.parts[1] / alone[1]).read_text(encoding="utf-8").splitlines(), int(alone[2])
        while lines[last - 1].lstrip().startswith("#["):
            last += 1
        return "%s of %s" % (alone[3], re.findall(FUNCTION, "\n".join(lines[:last]), re.M)[-1])
    return printed


def comment_faults(edit):
    lines, said = comment_lines(edit), comment(edit)
    if not said or len(lines) > 2 or any(len(line.encode()) > WIDTH or not line.startswith("# ") for line in lines):
        yield "%s: it does not open with '# NAME: WORDS. Refused at FACT of PLACE.', in at most two lines of %d bytes" % (edit, WIDTH)
    elif not re.fullmatch(NAME % (edit.parts[1], edit.parts[1]), said.name) or not exists(said.name):
        yield "%s: its crate has no function or definition %s" % (edit, said.name)


def log_faults(edit):
    first, found = comment(edit).facts.split(", then ")[0], refused(edit)
    if found != first:
        yield "%s: its comment says 'Refused at %s', and rt: %s" % (edit, comment(edit).facts, found)


def row(edit):
    """What the document says of an edit."""
    said = comment(edit)
    words = "  - %s%s. Refused at %s. `%s`" % (said.words[0].upper(), said.words[1:], said.facts, edit.relative_to(CRATES))
    return textwrap.fill(words, WIDTH, subsequent_indent="    ", break_on_hyphens=False) + "\n"


def index():
    """The rows of the document: a function or a definition, and under it its edits."""
    order = crates()
    ordered = sorted(edits(), key=lambda edit: (order.index(edit.parts[1]), comment(edit).name))
    groups = itertools.groupby(ordered, key=lambda edit: comment(edit).name)
    return "".join("- `%s`\n%s" % (name, "".join(map(row, group))) for name, group in groups)


def divided(document):
    """The document up to the rows, the rows, and what follows them."""
    parts = re.fullmatch(r"([\s\S]*^%s\n(?:(?!- |#).*\n)*)((?:(?:- |  ).*\n)*)([\s\S]*)" % TITLE, document, re.M)
    return parts.groups() if parts else sys.exit("edits.py: the document has no section '%s'" % TITLE)


def index_faults(document):
    written, made = divided(document)[1].splitlines(), index().splitlines()
    yield from ["not in the document: " + line.strip() for line in made if line not in written]
    yield from ["in no comment: " + line.strip() for line in written if line not in made]
    if written != made:
        yield "the rows of the document are not those of the comments: scripts/edits.py --index writes them"


def faults(document):
    if not LOG.is_file():
        return ["there is no %s: the gate leaves there what 'rt ci' prints" % LOG]
    return [fault for edit in edits() for fault in log_faults(edit)] + list(index_faults(document))


def main(path, writes):
    document = path.read_text(encoding="utf-8")
    wrong = [fault for edit in edits() for fault in comment_faults(edit)]
    if writes and not wrong:
        before, _, after = divided(document)
        path.write_text(before + index() + after, encoding="utf-8")
        return
    wrong = wrong or faults(document)
    for fault in wrong:
        print("edits.py: " + fault, file=sys.stderr)
    if wrong:
        sys.exit(1)
    print("%s: %d must-fail edits, each refused at the fact that it names" % (path, len(edits())))


if __name__ == "__main__":
    *options, last = sys.argv[1:] or [""]
    if options not in ([], ["--index"]) or not last:
        sys.exit(__doc__)
    main(pathlib.Path(last), bool(options))
