"""wrong_checkers.py [NAME..]: whether the tests of `compare` can fail.

Each entry of WRONG is a checker with one thing changed. Its tests are run twice: with the wrong checker beside the core, and
with the wrong checker in the place of both, where only what a test states by itself can notice: the stored answers of
crates/vectors are the wrong checker's too. Each run has to fail. Works on a copy of the project; needs the core's archive and
the program dayrun, whose place checkday takes in the second run, without the tests that it cannot meet. Not a part of the gate:
it takes some minutes.
"""

import os
import pathlib
import re
import shutil
import subprocess
import sys
import tempfile

HOST = pathlib.Path(__file__).resolve().parent
VECTORS = "crates/vectors"

# name, file of checker/src, text, wrong text
WRONG = [
    ("a tie goes down", "amounts.rs", "(exact + step * PARTS / 2)", "(exact + step * PARTS / 2 - 1)"),
    ("an amount may show 0", "amounts.rs", ".max(LEAST_SHOWN)", ".max(0)"),
    ("plus at the cap", "amounts.rs", "if exact > u128::from(cap)", "if exact >= u128::from(cap)"),
    ("plus by the rounded amount", "amounts.rs", "if exact > u128::from(cap) * PARTS", "if rounded(exact) > u128::from(cap)"),
    ("a cap need not be rounded", "amounts.rs", "&& rounded(u128::from(cap) * PARTS) == u128::from(cap)", ""),
    ("the highest element at fault", "rules.rs", "(1..=LAST_CODE).find", "(1..=LAST_CODE).rev().find"),
    ("8 before 7", "judge.rs", "    rule_7_element_missing(&values, action)?;\n    rule_8_element_not_taken(&values, action)?;", "    rule_8_element_not_taken(&values, action)?;\n    rule_7_element_missing(&values, action)?;"),
    ("10 before 9", "judge.rs", "    rule_9_form_broken(&values)?;\n    rule_10_not_a_pair(&values)?;", "    rule_10_not_a_pair(&values)?;\n    rule_9_form_broken(&values)?;"),
    ("15 before 9", "judge.rs", "    rule_9_form_broken(&values)?;\n", "    rule_15_not_admitted(find(ledger, &header, values.present(UTI)).map(|(_, row)| row), action)?;\n    rule_9_form_broken(&values)?;\n"),
    ("18 before 17", "judge.rs", "    rule_17_ledger_full(&header, action)?;\n    rule_18_identifiers_spent(&header, line_due)?;", "    rule_18_identifiers_spent(&header, line_due)?;\n    rule_17_ledger_full(&header, action)?;"),
    ("19 before 11", "judge.rs", "    rule_11_conditional_missing(&values)?;\n    rule_19_price_and_spread(&values)?;", "    rule_19_price_and_spread(&values)?;\n    rule_11_conditional_missing(&values)?;"),
    ("12 before 19", "judge.rs", "    rule_19_price_and_spread(&values)?;\n    rule_12_price_too_long(&values)?;", "    rule_12_price_too_long(&values)?;\n    rule_19_price_and_spread(&values)?;"),
    ("19 without the package", "rules.rs", "let there = |code| quoted(code, values).is_some();", "let there = |code| values.get(code).is_some();"),
    ("the spread's limits are not judged", "rules.rs", " || too_long(PACKAGE_SPREAD, SPREAD_NOTATION)", ""),
    ("notation 4 admits a decimal", "price.rs", "b\"4\" => (5, 0)", "b\"4\" => (5, 1)"),
    ("notation 4 admits six digits", "price.rs", "b\"4\" => (5, 0)", "b\"4\" => (6, 0)"),
    ("a spread does not stand for the price", "elements.rs", "is_package(values) && values.get(PACKAGE_SPREAD).is_none()", "is_package(values)"),
    ("neither price nor spread names 26", "elements.rs", "PACKAGE_PRICE => is_package(values) && values.get(PACKAGE_SPREAD).is_none()", "PACKAGE_SPREAD => is_package(values) && values.get(PACKAGE_PRICE).is_none()"),
    ("18 due without a price", "elements.rs", "PRICE_NOTATION => quoted(PACKAGE_PRICE, values).is_some()", "PRICE_NOTATION => is_package(values)"),
    ("27 due without a spread", "elements.rs", "SPREAD_NOTATION => quoted(PACKAGE_SPREAD, values).is_some()", "SPREAD_NOTATION => is_package(values)"),
    ("28 due with every notation", "elements.rs", "SPREAD_CURRENCY => is_monetary(PACKAGE_SPREAD, SPREAD_NOTATION, values)", "SPREAD_CURRENCY => quoted(PACKAGE_SPREAD, values).is_some()"),
    ("a currency is due by the notation alone", "elements.rs", "quoted(code, values).is_some() && values.get(notation) == Some(b\"1\")", "is_package(values) && values.get(notation) == Some(b\"1\")"),
    ("a price in basis points", "elements.rs", "is_price_notation(v)", "is_spread_notation(v)"),
    ("13 lets settlement before expiration pass", "rules.rs", "            || before(SETTLEMENT_DATE, EXPIRATION_DATE)\n", ""),
    ("14 lets the next identifier pass", "rules.rs", "!(1..header.next_identifier)", "!(1..=header.next_identifier)"),
    ("NEWT brings an errored swap back", "rules.rs", "(Action::Newt, UNKNOWN) =>", "(Action::Newt, UNKNOWN | ERRORED) =>"),
    ("REVI may change the execution time", "rules.rs", "matches!(action, Action::Modi | Action::Revi)", "matches!(action, Action::Modi)"),
    ("17 one row early", "rules.rs", "header.rows == header.capacity, 17", "header.rows + 1 >= header.capacity, 17"),
    ("18 for PRTO", "judge.rs", "rule_18_identifiers_spent(&header, line_due)", "rule_18_identifiers_spent(&header, line_due || action == Action::Prto)"),
    ("18 for a MODI without a line", "judge.rs", "rule_18_identifiers_spent(&header, line_due)", "rule_18_identifiers_spent(&header, line_due || action == Action::Modi)"),
    ("15 lets a MODI of equal terms pass", "judge.rs", "= rule_15_not_admitted(row, action)?;", "= if action == Action::Modi && row.is_some_and(|row| row.terms() == masked_terms(&values, &header.caps)) { 1 } else { rule_15_not_admitted(row, action)? };"),
    ("every MODI writes a line", "line.rs", "row.map(Row::terms) != Some(*terms)", "true"),
    ("a CORR of equal terms writes no line", "line.rs", "Action::Modi =>", "Action::Modi | Action::Corr =>"),
    ("a REVI of equal terms writes no line", "line.rs", "Action::Modi =>", "Action::Modi | Action::Revi =>"),
    ("the masked notional alone is compared", "line.rs", "row.map(Row::terms) != Some(*terms)", "row.is_some_and(|row| row.terms()[line::NOTIONAL - line::TERMS..][..17] != terms[line::NOTIONAL - line::TERMS..][..17])"),
    ("the plus sign is not compared", "line.rs", "row.map(Row::terms) != Some(*terms)", "row.is_some_and(|row| (0..TERMS).any(|i| i != line::PLUS - line::TERMS && row.terms()[i] != terms[i]))"),
    ("the spread is not compared", "line.rs", "row.map(Row::terms) != Some(*terms)", "row.is_some_and(|row| row.terms()[..line::SPREAD - line::TERMS] != terms[..line::SPREAD - line::TERMS])"),
    ("the last of the terms is not compared", "line.rs", "row.map(Row::terms) != Some(*terms)", "row.is_some_and(|row| row.terms()[..TERMS - 1] != terms[..TERMS - 1])"),
    ("the terms in the tape buffer are compared", "judge.rs", "is_line_due(action, row, &terms);", "is_line_due(action, row, &terms) && action != Action::Modi || action == Action::Modi && tape[crate::sizes::line::TERMS..][..TERMS] != terms;"),
    ("another event makes a line due", "judge.rs", "is_line_due(action, row, &terms);", "is_line_due(action, row, &terms) || action == Action::Modi && values.get(EVENT_TYPE) != Some(b\"TRAD\");"),
    ("another event time makes a line due", "judge.rs", "is_line_due(action, row, &terms);", "is_line_due(action, row, &terms) || action == Action::Modi && !tape[crate::sizes::line::EVENT_TIME..].starts_with(values.present(EVENT_TIMESTAMP));"),
    ("a MODI without a line takes an identifier", "judge.rs", "        return Answer::default();\n    }\n    let identifier", "        if *action == Action::Modi {\n            raise_next_identifier(ledger, header);\n        }\n        return Answer::default();\n    }\n    let identifier"),
    ("a MODI without a line writes its row", "judge.rs", "        return Answer::default();\n    }\n    let identifier", "        if let (Action::Modi, Some((place, _))) = (action, *row) {\n            change_row(ledger, place, *new_status, header.next_identifier, terms);\n        }\n        return Answer::default();\n    }\n    let identifier"),
    ("a MODI without a line answers the last identifier", "judge.rs", "        return Answer::default();\n    }\n    let identifier", "        return Answer {\n            identifier: row.map_or(0, |(_, last)| if *action == Action::Modi { last } else { 0 }),\n            ..Answer::default()\n        };\n    }\n    let identifier"),
    ("a MODI without a line writes to the tape buffer", "judge.rs", "        return Answer::default();\n    }\n    let identifier", "        if *action == Action::Modi {\n            tape[..crate::sizes::line::SIZE].fill(b' ');\n        }\n        return Answer::default();\n    }\n    let identifier"),
    ("opening leaves the totals", "ledger.rs", "    for status in LIVE..=PORTED {\n        put(ledger, total_at(status), &0u32.to_le_bytes());\n    }\n", ""),
    ("closed and errored totals stand in each other's place", "ledger.rs", "header::TOTALS + sizes::U32 * usize::from(status - LIVE)", "header::TOTALS + sizes::U32 * [0, 2, 1, 3][usize::from(status - LIVE)]"),
    ("the totals are added in 32 bits", "ledger.rs", "self.totals.map(u64::from).iter().sum::<u64>() == u64::from(self.rows)", "self.totals.into_iter().fold(0, u32::wrapping_add) == self.rows"),
    ("the sum of the totals is not judged", "ledger.rs", "\n        && header.sum_is_rows();", ";\n    let _ = header.sum_is_rows();"),
    ("14 does not judge the total", "rules.rs", "            || header.total(row.status()) == 0\n", ""),
    ("14 judges the live total", "rules.rs", "header.total(row.status()) == 0", "header.total(LIVE) == 0"),
    ("14 by a total is not asked in the status question", "judge.rs", "rule_14_row_wrong(Some(row), &header)?;", "rule_14_row_wrong(Some(row), &Header { totals: [1; TOTALS], ..header })?;"),
    ("15 before 14 by a total", "judge.rs", "    rule_14_row_wrong(row, &header)?;\n    let new_status = rule_15_not_admitted(row, action)?;\n", "    rule_14_row_wrong(row, &Header { totals: [1; TOTALS], ..header })?;\n    let new_status = rule_15_not_admitted(row, action)?;\n    rule_14_row_wrong(row, &header)?;\n"),
    ("a status that stays raises its total", "ledger.rs", "    if old == new {\n        return;\n    }\n", ""),
    ("NEWT does not raise the live total", "judge.rs", "move_totals(ledger, header, *old_status, *new_status);", "if *action != Action::Newt {\n        move_totals(ledger, header, *old_status, *new_status);\n    }"),
    ("PRTO does not lower the live total", "judge.rs", "move_totals(ledger, header, *old_status, *new_status);", "move_totals(ledger, header, if *action == Action::Prto { UNKNOWN } else { *old_status }, *new_status);"),
    ("PRTO moves no total", "judge.rs", "move_totals(ledger, header, *old_status, *new_status);", "if *action != Action::Prto {\n        move_totals(ledger, header, *old_status, *new_status);\n    }"),
    ("EROR of a closed swap lowers the live total", "judge.rs", "move_totals(ledger, header, *old_status, *new_status);", "move_totals(ledger, header, if *action == Action::Eror && header.total(1) > 0 { 1 } else { *old_status }, *new_status);"),
    ("REVI of a closed swap lowers the errored total", "judge.rs", "move_totals(ledger, header, *old_status, *new_status);", "move_totals(ledger, header, if *action == Action::Revi && header.total(3) > 0 { 3 } else { *old_status }, *new_status);"),
    ("the totals are not zeros beside 3", "judge.rs", "Err(answer) => (answer.verdict, [0; TOTALS]),", "Err(answer) => (answer.verdict, [0, 1, 2, 3].map(|place| ledger.get(64 + 4 * place..).and_then(|bytes| bytes.first_chunk()).map_or(0, |bytes| u32::from_le_bytes(*bytes)))),"),
    ("the totals question counts the rows", "judge.rs", "Ok(header) => (0, header.totals),", "Ok(header) => (0, [1, 2, 3, 4].map(|status| ledger[crate::sizes::header::SIZE..].chunks(crate::sizes::row::SIZE).take(header.rows as usize).filter(|row| row[0] == status).count() as u32)),"),
    ("padding is compared", "ledger.rs", "&self.bytes[row::UTI..][..uti.len()] == uti", "self.bytes[row::UTI..].starts_with(uti) && self.bytes[row::UTI + uti.len()..row::IDENTIFIER].iter().all(|&b| b == b' ')"),
    ("the last of two rows", "ledger.rs", ".find(|(_, row)| row.is_of(uti))", ".filter(|(_, row)| row.is_of(uti)).last()"),
    ("the capacity is not looked at", "ledger.rs", "        && header.capacity == capacity(ledger.len())\n", ""),
    ("NEWT leaves the last five bytes", "ledger.rs", "    row[row::TAIL..].fill(0);\n", ""),
    ("TERM keeps the old identifier", "ledger.rs", "    row[row::STATUS] = status;\n    put(row, row::IDENTIFIER, &identifier.to_le_bytes());\n}", "    row[row::STATUS] = status;\n    let _ = identifier;\n}"),
    ("a byte behind the line", "line.rs", "let line = &mut tape[..line::SIZE];", "if let Some(next) = tape.get_mut(line::SIZE) {\n        *next = b' ';\n    }\n    let line = &mut tape[..line::SIZE];"),
    ("a truth that is left out is shown", "line.rs", "    if is_not_cleared(values) {\n", "    if values.get(NON_STANDARDIZED_TERM).is_some() {\n"),
    ("a spread that is left out is shown", "line.rs", "quoted(code, values)", "values.get(code)"),
    ("a currency that is left out is shown", "line.rs", "is_due(code, values)", "values.get(code).is_some()"),
    ("the newline a byte early", "line.rs", "put(line::NEWLINE, b\"\\n\");", "put(line::NEWLINE - 1, b\"\\n\");"),
    ("the minus of zero is kept", "price.rs", "v.starts_with(b\"-\") && !is_zero", "v.starts_with(b\"-\")"),
    ("29 February 1900", "forms.rs", "(_, 0, _) => false,", "(_, 0, _) => year == 1900,"),
    ("any LEI remainder", "forms.rs", "    left == 1\n", "    left < 97\n"),
    ("a letter of a LEI takes one digit's place", "forms.rs", "left * 100 + u32::from(b - b'A') + 10", "left * 10 + u32::from(b - b'A') + 10"),
    ("the last character of a LEI is left out", "forms.rs", "    for &b in v {\n", "    for &b in &v[..v.len() - 1] {\n"),
    ("letters of a LEI are counted from 9", "forms.rs", "u32::from(b - b'A') + 10", "u32::from(b - b'A') + 9"),
    ("CNH is a currency", "lists.rs", "is_listed(v, CURRENCIES)", "v == b\"CNH\" || is_listed(v, CURRENCIES)"),
    ("any three capitals are a currency", "lists.rs", "is_listed(v, CURRENCIES)", "v.len() == CURRENCY && v.iter().all(u8::is_ascii_uppercase)"),
    ("any two capitals are a location", "lists.rs", "is_listed(v, LOCATIONS)", "v.len() == LOCATION && v.iter().all(u8::is_ascii_uppercase)"),
    ("the last code of a list is missing", "lists.rs", "lines.binary_search_by", "lines[..lines.len() - 1].binary_search_by"),
    ("a currency that is left out is not looked up", "rules.rs", "!has_form(code, v)", "!has_form(code, v) && (!matches!(code, 19 | 28) || is_due(code, values) || v.len() != 3 || !v.iter().all(u8::is_ascii_uppercase))"),
    ("an offset at the end", "message.rs", "next_start >= message.len()", "next_start > message.len()"),
    ("NEWT with ETRM", "matrix.rs", "(b\"NEWT\", Some(b\"UPDT\"))", "(b\"NEWT\", Some(b\"ETRM\"))"),
    ("a day of one row less", "day.rs", "sizes::ledger_size(DAY_ROWS)", "sizes::ledger_size(DAY_ROWS - 1)"),
    ("2,048 bytes are overlong", "day.rs", "message.len() > LONGEST_MESSAGE", "message.len() >= LONGEST_MESSAGE"),
    ("a lone byte is no cut", "day.rs", "[_] => Next::Cut", "[_] => Next::End"),
    ("a message cut short is judged", "day.rs", "None => Next::Cut", "None => Next::Message(bytes, &[])"),
    ("PRTO publishes a line", "day.rs", "if answer.identifier != 0 {", "if answer.verdict == 0 {"),
    ("every accepted MODI publishes a line", "day.rs", "if answer.identifier != 0 {", "if answer.verdict == 0 && crate::message::value(message, 2) != Some(b\"PRTO\") {"),
    ("an overlong message has no position", "day.rs", "self.judged += 1;", "self.judged += u64::from(message.len() <= LONGEST_MESSAGE);"),
]

# tests that checkday cannot meet: it reads all input before it writes
NOT_CHECKDAY = ["lines_come", "calls_are_few"]

# the core's calls, and the checker's in their place
CORE = [
    ("        sdr::open(ledger, caps)\n", "        Answer { verdict: checker::open(ledger, caps), ..Answer::default() }\n"),
    ("        sdr::submit(ledger, tape, message)\n", "        translated(checker::submit(ledger, tape, message))\n"),
    ("        sdr::status(ledger, uti)\n", "        translated(checker::status(ledger, uti))\n"),
    ("        sdr::totals_into(ledger, totals)\n", "        handed_over(checker::totals(ledger), totals)\n"),
]


def changed(path, old, new):
    text = path.read_text(encoding="utf-8")
    if text.count(old) != 1:
        sys.exit("%s has %d times: %s" % (path.name, text.count(old), old))
    path.write_text(text.replace(old, new), encoding="utf-8")


def copied(top):
    """A copy of the project's sources, with the archive and the program where they look for them."""
    (top / "target").mkdir()
    for name in ("staticlib", "bin"):
        (top / "target" / name).symlink_to(HOST.parent / "target" / name)
    for name in ("include", "data", VECTORS, "crates/dayrun", "days", "docs"):
        shutil.copytree(HOST.parent / name, top / name)
    return shutil.copytree(HOST, top / "host", ignore=shutil.ignore_patterns("target"))


def cargo(host, arguments, last=(), **more):
    """What a cargo command prints; the profile is one that compiles quickly."""
    environment = dict(os.environ, CARGO_PROFILE_RELEASE_OPT_LEVEL="1", CARGO_PROFILE_RELEASE_INCREMENTAL="true", **more)
    command = ["cargo", *arguments, "--release", "--offline", "--locked", *last]
    ended = subprocess.run(command, cwd=host, env=environment, capture_output=True, text=True)
    if "could not compile" in ended.stderr:
        sys.exit(ended.stderr[-2000:])
    return ended.stdout


def write_answers(host):
    """Writes the stored answers of the table anew: those of this checker."""
    table = host.parent / VECTORS
    with open(table / "stdin") as questions, open(table / "stdout", "w") as answers:
        subprocess.run([host / "target/release/checktable"], stdin=questions, stdout=answers, check=True)


def failing(host, alone):
    """The tests that fail, up to the first file of tests that has one; alone: checkday takes the place of dayrun."""
    more = {}
    skipped = []
    if alone:
        cargo(host, ["build", "-p", "checker", "--bins"])
        write_answers(host)
        more["DAYRUN"] = str(host / "target/release/checkday")
        skipped = ["--", *("--skip=" + name for name in NOT_CHECKDAY)]
    printed = cargo(host, ["test", "-p", "compare", "--tests"], skipped, **more)
    return sorted(set(re.findall(r"^test (\S+) \.\.\. FAILED$", printed, re.M)))


def both_ways(host):
    """What fails with the checker beside the core, and with the checker in the place of both."""
    judge = host / "compare/src/judge.rs"
    apart = judge.read_text(encoding="utf-8")
    answers = host.parent / VECTORS / "stdout"
    stored = answers.read_bytes()
    yield "beside the core", failing(host, False)
    for call in CORE:
        changed(judge, *call)
    yield "in the place of both", failing(host, True)
    judge.write_text(apart, encoding="utf-8")
    answers.write_bytes(stored)


def main(names):
    unnoticed = 0
    if not (HOST.parent / "target/bin/dayrun").is_file():
        sys.exit("the program dayrun is missing: make it with bash scripts/build")
    with tempfile.TemporaryDirectory() as folder:
        host = copied(pathlib.Path(folder))
        print("the right checker, whose tests have to pass", flush=True)
        for way, found in both_ways(host):
            if found:
                sys.exit("the right checker, %s: %s" % (way, ", ".join(found)))
        for name, file, old, new in WRONG:
            if names and name not in names:
                continue
            source = host / "checker/src" / file
            right = source.read_text(encoding="utf-8")
            changed(source, old, new)
            for way, found in both_ways(host):
                unnoticed += not found
                print("%s, %s: %s" % (name, way, ", ".join(found[:3]) or "NOT NOTICED"), flush=True)
            source.write_text(right, encoding="utf-8")
    print("%d runs not noticed" % unnoticed)
    sys.exit(1 if unnoticed else 0)


if __name__ == "__main__":
    main(sys.argv[1:])
