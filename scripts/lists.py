"""lists.py [--fix]: the code lists in crates/iso are those in data/.

Each file of data/ has one code a line, all of one width, in capitals and in rising order. The definition has the same codes in the same order, a line for
each first letter. The code has their numbers, one a line, with the code as a comment.

Prints each place that is not as the files have it, and fails if there is any. With --fix it writes those places anew.
"""

import itertools
import pathlib
import re
import sys

DATA = pathlib.Path("data")
DEFINITION = pathlib.Path("crates/iso/specs/Lists.antt")
CODE = pathlib.Path("crates/iso/src/lib.rt")
LISTS = [("iso-4217.txt", 3, "iso4217", "is_currency"), ("iso-3166-1.txt", 2, "iso3166", "is_location")]


def codes_of(name, width):
    """The codes of a file. The script ends where it is no list of codes."""
    text = (DATA / name).read_bytes().decode("latin-1")
    codes = text.split("\n")[:-1]
    if not codes or text != "".join(code + "\n" for code in codes):
        sys.exit(f"lists: {DATA / name}: one code a line, each line ended")
    for code in codes:
        if not re.fullmatch(f"[A-Z]{{{width}}}", code):
            sys.exit(f"lists: {DATA / name}: {code!r} is not {width} capitals")
    for before, code in itertools.pairwise(codes):
        if code <= before:
            sys.exit(f"lists: {DATA / name}: {code} stands behind {before}")
    return codes


def defined(codes):
    """The list as the definition has it."""
    letters = [" ".join(f'"{code}" ∷' for code in group) for _, group in itertools.groupby(codes, lambda code: code[0])]
    return "".join(f"    {letter}\n" for letter in letters) + "    []\n"


def matched(codes):
    """The arms as the code has them: the bytes of each code and a zero byte behind them."""
    numbers = ["0x" + "_".join(f"{byte:02X}" for byte in code.encode()) + "_00" for code in codes]
    lines = [f"{number} // {code}\n" for number, code in zip(numbers, codes)]
    lines[-1] = f"{numbers[-1]} => true, // {codes[-1]}\n"
    return "        " + "        | ".join(lines)


def places(codes, definition, function):
    """Each place of the list: its file, what stands before it, it and what stands behind it, and how it should read."""
    return [
        (DEFINITION, rf"(\n{definition} =\n)(.*?    \[\]\n)()", defined(codes)),
        (CODE, rf"(\npub fn {function}\(.*?    match u32::from_be_bytes\([^\n]*\) {{\n)(.*?)(        _ => false,\n)", matched(codes)),
    ]


def main(fix):
    wrong = 0
    for name, width, definition, function in LISTS:
        codes = codes_of(name, width)
        for path, place, text in places(codes, definition, function):
            source = path.read_text(encoding="utf-8")
            found = re.search(place, source, re.S)
            if not found:
                sys.exit(f"lists: {path}: the list of {name} is not found")
            if found.group(2) != text:
                wrong += 1
                print(f"lists: {path}: {definition} is {'now' if fix else 'not'} as data/{name} has it")
                if fix:
                    path.write_text(source[: found.start(2)] + text + source[found.end(2) :], encoding="utf-8")
        print(f"lists: {name}: {len(codes)} codes")
    if wrong and not fix:
        sys.exit(1)


if __name__ == "__main__":
    if sys.argv[1:] not in ([], ["--fix"]):
        sys.exit(__doc__)
    main(sys.argv[1:] == ["--fix"])
