"""promises.py PROMISES.md: the document has an entry for each clause, every name that it gives exists, and it quotes what is promised, as the files have it.

An entry opens with the number of a clause of SPECIFICATION and a title, as in '- 2.3 title' or '- Verdict 7 title'. Every clause has one entry, under the
section of the same title and in the same order. The quotations of SPECIFICATION are lines of the named files, in a row, without the spaces at their ends.
No document has a longer line than LONGEST_LINE characters.

A name stands in back quotes and is one of
  crate::module::function          a function of crates/crate/src, by itself or of a trait (as from)
  crate::module::Type::method      a method of a type there
  crate::module::Type              a struct or an enum of crates/crate/src
  crate/specs/File.antt#name       a definition; crate/proofs/File.antt#name: a law
  crate/must-fail/label.edit       a must-fail edit of the gate
  vectors#word                     lines of crates/vectors/stdin that open with the word
  host/dir/file.rs#test            a test of the host project
Anything else in back quotes is an error, and so is a public function of a library or a function of a program that the document does not name.
edits.py holds the rows about must-fail edits to the edits.

A quotation is a block that opens with three back quotes and the name of a file, as in crate/specs/File.antt. Its lines stand in that file, one after the
other. Of a file of code the lines that say how a function is proved, or why its form stays, are passed over (PASSED_OVER). A statement is a definition of
specs that is a claim of its own or one under some limits, a record of Laws, Demands or Sizes, or one that is a whole clause of a contract. These are quoted
whole, each with the comment above it:
  the contract of every function that cites a statement; an export's clauses are those of the function of its name in EXPORTED, word for word
  every file of DEMANDS from its first definition on
  every statement, the definitions with a capital that it comes to, and the tables and other definitions of its own file that it speaks of
  every struct with a ghost field, which is asked of each function that makes such a value and holds for each that takes one
Every statement is cited: named by an ensures clause, or by a definition with a capital that such a clause comes to. A clause is of Type 0, so a statement
of a higher type has a law in proofs/ instead. CITED says which functions must cite what, and FORMS names further functions whose contracts are quoted.
"""

import functools
import pathlib
import re
import sys

CRATES = pathlib.Path("crates")

# the files that state the demands
DEMANDS = [
    "submission/specs/Demand1.antt",
    "submission/specs/Demand2.antt",
    "submission/specs/Demand3.antt",
    "submission/specs/Published.antt",
    "submission/specs/Counting.antt",
    "submission/specs/SinceOpening.antt",
    "repository/specs/Demands.antt",
]

# what contracts must cite, whatever code and document say: names of definitions, or words of the definitions that they come to
CITED = {
    "repository::sdr_open": ["OpeningDemands", "OpeningAnswers", "EachOpeningExactly", "OpeningWrites", "OpeningPasses", "OpeningPassesUnder document_limits"],
    "repository::sdr_submit": [
        "SubmissionDemands",
        "SubmissionAnswers",
        "VerdictExactly",
        "CheckingOrder",
        "AcceptedExactly",
        "LineDueExactly",
        "QuietModification",
        "AcceptanceWrites",
        "SameTapes",
        "TapePublished",
        "IdentifierWithLine",
        "IdentifierCounts",
        "QuietCall",
        "NumberCarries",
        "MaskedTermsPublic",
        "QuietModificationUnder document_limits",
        "WritesUnder document_limits",
        "SameTapesUnder document_limits",
        "TapePublishedUnder document_limits",
        "IdentifierCountsUnder document_limits",
    ],
    "repository::sdr_status": ["QuestionDemands", "QuestionAnswers", "EachQuestionExactly", "NumberCarries"],
    "repository::sdr_totals": [
        "TotalsDemands",
        "TotalsAnswers",
        "EachTotalsExactly",
        "TotalsCount",
        "TotalsSum",
        "RowsDiffer",
        "TotalsCountUnder document_limits",
        "TotalsSumUnder document_limits",
        "RowsDifferUnder document_limits",
    ],
    "message::layout::layout_right": ["LayoutLaws", "ValuesWhole", "ValueFilled", "ValueFound"],
    "values::lei::next_remainder": ["PrefixRemainder"],
    "iso::is_currency": ["CurrencyCapitals"],
    "iso::is_location": ["LocationCapitals"],
    "dates::is_before": ["DateOrder", "TimeOrder"],
    "notional::mask": ["MaskingLaws", "ExamplesShown", "NearestStep", "LeastShown", "RoundedAgain", "ShownWithin"],
    "price::write_price": ["PriceLaws", "PricesShown", "PriceFits"],
    "actions::matrix::is_pair": ["NamedPairs"],
    "terms::write_terms": ["TermsLaws", "TermsPublic", "NotionalFits"],
    "ledger::line::write_line": ["DocumentSizes"],
    "dayrun::run::judge_block": ["NothingLost"],
}

# functions of the section 'Forms in the code', whose contracts are quoted too
FORMS = [
    "message::start",
    "message::Reader::seek",
    "message::Reader::value",
    "message::element",
    "message::entries::value_at",
    "message::laid::LaidMessage::value_here",
    "message::laid::Cursor::value_of",
    "octets::part_of",
    "elements::shown::MessageFacts::kept",
    "actions::table::read_action",
    "notional::step_of",
    "rules::checks::lowest_fault",
    "rules::checks::lowest_missing",
    "rules::checks::lowest_not_taken",
    "rules::checks::lowest_broken",
    "rules::checks::lowest_due",
    "rules::judge",
    "rules::judge_laid",
    "ledger::rows::store_row",
    "dayrun::output::waiting",
]

TEST_PROGRAMS = ["vectors"]

# the crate whose functions the exports for C hand on
EXPORTED = "repository"

SPECIFICATION = pathlib.Path("docs/SPECIFICATION.md")
CLAUSE = r"\*\*(\d+\.\d+|Verdict \d+)\*\*"
ENTRY = r"- (\d+\.\d+|Verdict \d+) (?=\S)"

DOCUMENTS = ["*.md", "docs/**/*.md", "data/*.md", "host/**/*.md", "days/*.md", "bench/*.md"]
LONGEST_LINE = 160


# lines of code that promise nothing: the tactic of a function's proof, and why a form stays
PASSED_OVER = r"^ *(?:#\[tactic\(.*\)\]|// Stays: .*)\n"


def text(path):
    return path.read_text(encoding="utf-8") if path.is_file() else None


def quotable(path):
    """The text of a file without the lines that quotations pass over."""
    return re.sub(PASSED_OVER, "", text(path) or "", flags=re.M) if path.suffix == ".rt" else text(path) or ""


FUNCTION = r"^ *(?:pub )?(?:extern \"C\" )?fn (\w+)"
PUBLIC_FUNCTION = r"^ *pub (?:extern \"C\" )?fn (\w+)"
TYPE = r"^(?:pub )?(?:struct|enum) (\w+)"


def functions(source):
    """The line of each function, its name and whether it is pub; that of a method has its type in front. An impl block ends at the first column."""
    owner = []
    for at, line in enumerate(source.splitlines()):
        block = re.match(r"impl\b(?:<[^>]*>)? *(\w+)(?:<[^>]*>)? *\{", line)
        owner = [block[1]] if block else [] if re.match(r"\S", line) else owner
        function = re.match(FUNCTION, line)
        if function:
            yield at, "::".join([*owner, function[1]]), bool(re.match(PUBLIC_FUNCTION, line))


def sources(modules, crate):
    """The file of a module, or every file of the crate: what they have may be re-exported."""
    return sorted((CRATES / crate / "src").glob("/".join(modules) + ".rt" if modules else "*.rt"))


def function_exists(name):
    """crate::f or crate::module::f, with the type in front of a method's name."""
    crate, *modules, item = name.split("::")
    if modules and modules[-1][0].isupper():
        item = modules.pop() + "::" + item
    return any(item == found for f in sources(modules, crate) for _, found, _ in functions(text(f)))


def type_exists(name):
    crate, *modules, item = name.split("::")
    return any(item in re.findall(TYPE, text(f), re.M) for f in sources(modules, crate))


def definition_exists(name):
    path, _, word = name.partition("#")
    return re.search(r"^\s*(?:abbrev |unfoldable )?pub (?:record |data )?%s(?=[\s:])" % re.escape(word), text(CRATES / path) or "", re.M)


def host_test_exists(name):
    path, _, word = name.partition("#")
    return re.search(r"^#\[test\]\nfn %s\(" % re.escape(word), text(pathlib.Path(path)) or "", re.M)


def vector_exists(name):
    word = name.partition("#")[2]
    return re.search(r"^%s\b" % re.escape(word), text(CRATES / "vectors" / "stdin"), re.M)


def exists(name):
    if name.startswith("vectors#"):
        return vector_exists(name)
    if re.fullmatch(r"host/[\w/]+\.rs#\w+", name):
        return host_test_exists(name)
    if re.fullmatch(r"[a-z_]+(::[a-z_0-9]+)*(::[A-Z]\w*)?::[a-z_0-9]+", name):
        return function_exists(name)
    if re.fullmatch(r"[a-z_]+(::[a-z_0-9]+)*::[A-Z]\w*", name):
        return type_exists(name)
    if re.fullmatch(r"[a-z_]+/(specs|proofs)/[\w/]+\.antt#\S+", name):
        return definition_exists(name)
    if re.fullmatch(r"[a-z_]+/must-fail/\w+\.edit", name):
        return (CRATES / name).is_file()
    return False


def public_functions():
    """What a library hands out: functions and methods that are pub in lib.rt, or re-exported there, by themselves or with their type."""
    for lib in sorted(CRATES.glob("*/src/lib.rt")):
        crate, source = lib.parts[1], text(lib)
        for _, name, is_pub in functions(source):
            if is_pub:
                yield "%s::%s" % (crate, name)
        for module, names in re.findall(r"^pub use (\w+)::(\w+|\{[^}]*\});", source, re.M):
            handed_out = re.findall(r"\w+", names)
            for _, name, is_pub in functions(text(lib.parent / (module + ".rt")) or ""):
                if is_pub and name.split("::")[0] in handed_out:
                    yield "%s::%s::%s" % (crate, module, name)


def program_functions():
    """The functions of a program but main; a program that only tests promises nothing."""
    for main_file in sorted(CRATES.glob("*/src/main.rt")):
        crate = main_file.parts[1]
        if crate in TEST_PROGRAMS:
            continue
        for file in sorted(main_file.parent.glob("*.rt")):
            module = [] if file == main_file else [file.stem]
            for _, name, _ in functions(text(file)):
                if name != "main":
                    yield "::".join([crate, *module, name])


DEFINITION = r"^(?:abbrev |unfoldable )?pub (?:record |data )?(?!mod |use )([^\s:]+)"
IMPORT = r"use Rattle\.(\w+)\.specs\.([\w.]+)\.\{([^}]*)\}"
STATEMENT = r"^(?:abbrev pub ([A-Z]\w*) : (?:Limits → )?Type \d$|pub record ([A-Z]\w*(?:Laws|Demands|Sizes)) : Type \d where$)"
# what the first form of a statement has too: types of values
VALUES = {"Bytes", "Element", "FieldText"}


def paragraphs(file):
    """What a file of specs says after its imports: definitions with their comments, and titles, between blank lines."""
    after = re.split(r"^(?:pub )?use .*\n", text(CRATES / file) or "", flags=re.M)[-1]
    return re.split(r"\n\n+(?=\S)", after.strip("\n"))


@functools.cache
def definitions(file):
    """The paragraph of each name that a file of specs defines."""
    return {name: p for p in paragraphs(file) for name in re.findall(DEFINITION, p, re.M)}


@functools.cache
def imports(file):
    """The file of specs of each name that a file imports."""
    found = re.findall(IMPORT, text(CRATES / file) or "")
    return {name.strip(): "%s/specs/%s.antt" % (crate, path.replace(".", "/")) for crate, path, names in found for name in names.split(",")}


def meant(file, name):
    """The file and the name of the definition that a name means in a file, or None."""
    if name in definitions(file):
        return file, name
    return meant(imports(file)[name], name) if name in imports(file) else None


def named(file, source):
    """The definitions that a text of a file names; comments, fields and labels of fields name none."""
    bare = re.sub(r"(?:--|//).*|\.\w+|^ +pub \S+ :|\bensures \w+", "", source, flags=re.M)
    return {meant(file, word) for word in re.findall(r"[^\s(){},;«»]+", bare)} - {None}


def reached(file, source):
    """The definitions with a capital that a text of a file names, and those that these name."""
    found, waiting = set(), [(file, source)]
    while waiting:
        new = {(f, name) for f, name in named(*waiting.pop()) if name[0].isupper()} - found
        found |= new
        waiting += [(f, definitions(f)[name]) for f, name in new]
    return found


def spoken_of(file, name):
    """A statement, the definitions with a capital that it comes to, and all that those of its own file name there."""
    found = {(file, name)} | reached(file, definitions(file)[name])
    return found | {d for f, n in found if f == file for d in named(f, definitions(f)[n]) if d[0] == file}


@functools.cache
def contracts():
    """Name, file and text of every function's contract: comment, signature and clauses, up to the brace of its body."""
    found = []
    for path in sorted(CRATES.glob("*/src/*.rt")):
        file, lines = path.relative_to(CRATES).as_posix(), quotable(path).splitlines()
        module = [] if path.stem in ("lib", "main") else [path.stem]
        for at, function, _ in functions("\n".join(lines)):
            first = at
            while re.match(r" *(?://|#\[)", lines[first - 1]):
                first -= 1
            last = next(i for i in range(at, len(lines)) if lines[i].endswith("{"))
            found.append(("::".join([path.parts[1], *module, function]), file, "\n".join(lines[first:last])))
    return found


def ghost_structs():
    """File, name and text of every struct with a ghost field, with its comment and its attributes."""
    for path in sorted(CRATES.glob("*/src/*.rt")):
        for found in re.finditer(r"(?:^(?://|#\[).*\n)*^(?:pub )?struct (\w+).*\{\n(?:.*\n)*?\}", quotable(path), re.M):
            if re.search(r"^ *(?:pub )?ghost ", found[0], re.M):
                yield path.relative_to(CRATES).as_posix(), found[1], found[0]


def promised(contract):
    """The clauses of a contract that say what holds after the call."""
    return "".join(re.findall(r"^ *ensures\b.*?(?=^ *(?:requires|ensures)\b|\Z)", contract, re.M | re.S))


@functools.cache
def statements():
    """File and name of every statement."""
    specs = [path.relative_to(CRATES).as_posix() for path in sorted(CRATES.glob("*/specs/**/*.antt"))]
    found = [(file, one or other) for file in specs for one, other in re.findall(STATEMENT, text(CRATES / file), re.M)]
    own = {(file, name) for file, name in found if name not in VALUES}
    clauses = {meant(file, name) for _, file, contract in contracts() for name in re.findall(r"\{ ([A-Z]\w*) \}", promised(contract))}
    return own | clauses - {None}


def due():
    """File, name and text of what the document must quote."""
    for name, file, contract in contracts():
        if 'extern "C"' not in contract and (name in FORMS or named(file, promised(contract)) & statements()):
            yield file, name, contract
    for file in DEMANDS:
        for paragraph in paragraphs(file):
            yield file, (re.findall(DEFINITION, paragraph, re.M) or paragraph.splitlines())[0], paragraph
    for file, name in sorted(statements()):
        for f, n in sorted(spoken_of(file, name)):
            yield f, n, definitions(f)[n]
    yield from ghost_structs()


def holds(source, part):
    """The lines of part stand in source, one after the other."""
    return "\n%s\n" % part.strip("\n") in "\n%s\n" % source


def quotations(document):
    return [(file, quoted.rstrip("\n")) for file, quoted in re.findall(r"^```(\S+)\n(.*?)^```$", document, re.M | re.S)]


def without_ends(source):
    return re.sub(r" +$", "", source, flags=re.M)


def misquotations(document, root):
    """The quotations that are not the text of their files under root, each with the first line that is not. Spaces at the end of a line do not count."""
    for file, block in quotations(document):
        lines, source = without_ends(block).splitlines(), without_ends(quotable(root / file))
        for i in range(len(lines)):
            if not holds(source, "\n".join(lines[: i + 1])):
                yield "not the text of %s: '%s'" % (file, lines[i])
                break


def without_quotations(document):
    return re.sub(r"^```.*?^```$", "", document, flags=re.M | re.S)


def quotation_faults(document):
    """The quotations are the files' text, and none that is due is missing."""
    quoted = quotations(document)
    yield from misquotations(document, CRATES)
    for file, name, source in dict.fromkeys(due()):
        if not any(f == file and holds(block, source) for f, block in quoted):
            yield "not quoted whole, of %s: %s" % (file, name)


def is_stated(file, name):
    """A statement above Type 0 that is the type of a law of its crate."""
    laws = (CRATES / file.split("/")[0] / "proofs").glob("**/*.antt")
    is_above = re.search(r"pub %s : Type [1-9]" % name, definitions(file)[name])
    return is_above and any(re.search(r"^pub \S+ : %s$" % name, text(law), re.M) for law in laws)


def citation_faults():
    """Every statement is cited, functions cite what they must, and those of FORMS are there."""
    cited = {name: reached(file, promised(contract)) for name, file, contract in contracts()}
    everywhere = set().union(*cited.values())
    for file, name in sorted(statements() - everywhere):
        if not is_stated(file, name):
            yield "no contract cites %s#%s" % (file, name)
    for function in FORMS:
        if function not in cited:
            yield "no such function: %s of FORMS" % function
    for function, names in CITED.items():
        found = cited.get(function, set())
        words = " ".join(" ".join(definitions(file)[name].split()) for file, name in found)
        for name in names:
            if name not in {n for _, n in found} and not (" " in name and name in words):
                yield "the contract of %s does not cite %s" % (function, name)


def export_faults():
    """An export takes and promises, word for word, what the function of its name in EXPORTED does."""
    plain = {name: re.sub(r"^#\[.*\n", "", contract.replace('extern "C" ', ""), flags=re.M) for name, _, contract in contracts()}
    for name, _, contract in contracts():
        if 'extern "C"' in contract and plain[name] != plain.get("%s::%s" % (EXPORTED, name.split("::")[-1])):
            yield "%s has not the contract of %s's function" % (name, EXPORTED)


def outline(document, clause):
    """The titles of the numbered sections and the numbers of what opens like a clause, in order."""
    return ["".join(found) for found in re.findall(r"^(?:(## \d+ .+)$|%s)" % clause, without_quotations(document), re.M)]


def clause_faults(document, specification):
    """The document has the sections and the clauses of the specification, each once and in the same order."""
    clauses, entries = outline(specification, CLAUSE), outline(document, ENTRY)
    for name in dict.fromkeys(clauses + entries):
        for where, names in (("in the specification", clauses), ("in the document", entries)):
            if names.count(name) != 1:
                yield "%s %s: %s" % ("not" if name not in names else "more than once", where, name)
    both = [name for name in dict.fromkeys(entries) if name in clauses]
    for name, wanted in zip(both, [name for name in dict.fromkeys(clauses) if name in entries]):
        if name != wanted:
            yield "wrong order: %s stands where %s is due" % (name, wanted)
            break


def specification_faults(specification):
    """The quotations of the specification are the files' text."""
    for fault in misquotations(specification, pathlib.Path()):
        yield "%s: %s" % (SPECIFICATION, fault)


def length_faults():
    """No document has a line that is too long."""
    for path in sorted(path for pattern in DOCUMENTS for path in pathlib.Path().glob(pattern)):
        for number, line in enumerate(path.read_text(encoding="utf-8").splitlines(), 1):
            if len(line) > LONGEST_LINE:
                yield "%s:%d: a line of %d characters" % (path, number, len(line))


def main(path):
    whole = pathlib.Path(path).read_text(encoding="utf-8")
    specification = SPECIFICATION.read_text(encoding="utf-8")
    document = without_quotations(whole)
    names = re.findall(r"`([^`\n]+)`", document)
    faults = ["no such name: " + name for name in sorted(set(names)) if not exists(name)]
    faults += ["not in the document: " + name for name in [*public_functions(), *program_functions()] if name not in names]
    faults += clause_faults(whole, specification)
    faults += quotation_faults(whole)
    faults += citation_faults()
    faults += export_faults()
    faults = ["%s: %s" % (path, fault) for fault in faults] + list(specification_faults(specification)) + list(length_faults())
    for fault in faults:
        print(fault, file=sys.stderr)
    if faults:
        sys.exit(1)
    counts = len(re.findall("^" + ENTRY, document, re.M)), len(set(names)), len(quotations(whole))
    print("%s: %d clauses, an entry each; %d names, each of them exists; %d quotations, as the files have them" % (path, *counts))


if __name__ == "__main__":
    if len(sys.argv) != 2:
        sys.exit(__doc__)
    main(sys.argv[1])
