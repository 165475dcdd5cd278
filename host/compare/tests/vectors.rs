//! The table of questions, crates/vectors, with its stored answers, asked of
//! core and checker by opening and submitting. The models of this package
//! agree with the answers.

use compare::compared::Compared;
use compare::faults::{Case, Fault};
use compare::layout::SPREAD_IN_LINE;
use compare::layout::{self, ledger_size, Caps, Header, DAY_CAPS, LINE_SIZE};
use compare::layout::{NOTIONAL_IN_LINE, NOTIONAL_SIZE, PLUS_IN_LINE, PRICE_IN_LINE, PRICE_SIZE};
use compare::lists::{ACTIONS, EVENTS};
use compare::random::Random;
use compare::sound::{plain_new, plain_package, plain_spread};
use compare::{matrix, order, terms};
use sdr::Answer;
use std::collections::BTreeSet;
use std::fs;
use std::path::Path;

const CAPS: Caps = DAY_CAPS;

/// A line of the table: the rest after the word, and the stored answer.
struct Line {
    rest: String,
    answer: String,
}

impl Line {
    fn fields(&self) -> Vec<&str> {
        self.rest.split(' ').collect()
    }

    fn is_yes(&self) -> bool {
        assert!(["yes", "no"].contains(&self.answer.as_str()));
        self.answer == "yes"
    }
}

fn table(name: &str) -> Vec<String> {
    let package = Path::new(env!("CARGO_MANIFEST_DIR"));
    let path = package.join("../../crates/vectors").join(name);
    let text = fs::read_to_string(&path).expect("the table can be read");
    text.lines().map(str::to_string).collect()
}

/// The lines of a word; there is at least one.
fn lines(word: &str) -> Vec<Line> {
    let (questions, answers) = (table("stdin"), table("stdout"));
    assert_eq!(questions.len(), answers.len());
    let mut lines = Vec::new();
    for (question, answered) in questions.iter().zip(&answers) {
        let answer = answered.strip_prefix(question.as_str());
        let answer = answer.and_then(|rest| rest.strip_prefix(" -> "));
        let answer = answer.expect("an answer repeats its question").to_string();
        let (first, rest) = question.split_once(' ').unwrap_or((question, ""));
        if first == word {
            let rest = rest.to_string();
            lines.push(Line { rest, answer });
        }
    }
    println!("{word}: {} lines", lines.len());
    assert!(!lines.is_empty(), "{word}");
    lines
}

/// A value: plain text, or hexadecimal after '#'.
fn value(text: &str) -> Vec<u8> {
    match text.strip_prefix('#') {
        Some(digits) => hexadecimal(digits),
        None => text.as_bytes().to_vec(),
    }
}

fn hexadecimal(digits: &str) -> Vec<u8> {
    let pairs = (0..digits.len()).step_by(2);
    let byte = |at: usize| u8::from_str_radix(&digits[at..at + 2], 16);
    pairs.map(|at| byte(at).expect("hexadecimal")).collect()
}

fn number(text: &str) -> u64 {
    text.parse().expect("a number")
}

#[test]
fn caps() {
    for line in lines("cap") {
        let mut compared = Compared::new();
        compared.set_ledger(&vec![0; ledger_size(1)]);
        let verdict = compared.open(&[number(&line.rest); 5]).verdict;
        assert_eq!(verdict, if line.is_yes() { 0 } else { 2 }, "{}", line.rest);
    }
}

#[test]
fn masked_amounts() {
    let mut shown = 0;
    for line in lines("masked") {
        let fields = line.fields();
        let (cap, amount) = (number(fields[0]), fields[1]);
        let (units, plus) = terms::masked(amount.as_bytes(), cap);
        let sign = if plus { "+" } else { "" };
        let due = format!("{units:0NOTIONAL_SIZE$}{sign}");
        assert_eq!(due, line.answer, "{}", line.rest);
        // Some caps of the table are not let pass; the core masks under them too.
        let mut compared = Compared::new();
        compared.set_ledger(&vec![0; ledger_size(1)]);
        if compared.open(&[cap; 5]).verdict != 0 {
            continue;
        }
        shown += 1;
        let message = plain_new().with(20, amount).encode();
        let (_, _, tape) = submit(compared.ledger(), &message);
        let field = NOTIONAL_IN_LINE.start..PLUS_IN_LINE.end;
        assert_eq!(tape[field].trim_ascii_end(), line.answer.as_bytes());
    }
    assert!(shown >= 290, "{shown}");
}

#[test]
fn shown_prices() {
    for line in lines("shown") {
        let price = &line.rest;
        assert_eq!(
            terms::shown_price(price.as_bytes()),
            line.answer.as_bytes(),
            "{price}"
        );
        let due = format!("{:PRICE_SIZE$}", line.answer);
        for (message, field) in [
            (plain_package("1", price), PRICE_IN_LINE),
            (plain_spread("1", price), SPREAD_IN_LINE),
        ] {
            let (_, _, tape) = submit(&opened(), &message.encode());
            assert_eq!(tape[field], *due.as_bytes(), "{price}");
        }
    }
}

#[test]
fn pairs_of_the_matrix() {
    let mut random = Random::for_test(602);
    let mut asked = BTreeSet::new();
    for line in lines("pair") {
        let fields = line.fields();
        let (action, event) = (fields[0], fields.get(1).copied());
        assert_eq!(matrix::is_pair(action, event), line.is_yes());
        let mut case = Case::sound(&mut random, action);
        match event {
            Some(event) => _ = case.message.set(3, event),
            None => _ = case.message.remove(3),
        }
        let (answer, _) = submit_case(&case);
        let due = match event {
            _ if line.is_yes() => (0, 0),
            Some(event) if !is_event(event) => (9, 3),
            _ => (10, 0),
        };
        assert_eq!((answer.verdict, answer.element), due, "{}", line.rest);
        asked.insert((action.to_string(), event.map(str::to_string)));
    }
    for action in ACTIONS {
        for event in EVENTS.map(Some).into_iter().chain([None]) {
            let cell = (action.to_string(), event.map(str::to_string));
            assert!(asked.contains(&cell), "{cell:?}");
        }
    }
}

fn is_event(text: &str) -> bool {
    text.len() == 4 && text.bytes().all(|byte| byte.is_ascii_uppercase())
}

/// Submits the case's message to its ledger.
fn submit_case(case: &Case) -> (Answer, Compared) {
    let mut compared = Compared::new();
    compared.set_ledger(&case.ledger());
    compared.set_tape(&case.tape());
    (compared.submit(&case.message()), compared)
}

#[test]
fn layouts() {
    for line in lines("layout") {
        let (verdict, _, _) = submit(&opened(), &value(&line.rest));
        assert_eq!(verdict != 5, line.is_yes(), "{}", line.rest);
    }
}

/// A fresh ledger of two rows.
fn opened() -> Vec<u8> {
    let mut ledger = vec![0xee; ledger_size(2)];
    layout::write(&mut ledger, &Header::opened(ledger_size(2), CAPS), &[]);
    ledger
}

/// Verdict, element and tape buffer after one message.
fn submit(ledger: &[u8], message: &[u8]) -> (u8, u8, Vec<u8>) {
    let mut compared = Compared::new();
    compared.set_ledger(ledger);
    compared.set_tape(&[b'x'; LINE_SIZE]);
    let answer = compared.submit(message);
    (answer.verdict, answer.element, compared.tape().to_vec())
}

/// The words for forms and the codes that have them.
const FORMS: [(&str, &[u8]); 16] = [
    ("uti", &[1]),
    ("event", &[3]),
    ("time", &[4, 5, 6]),
    ("date", &[7, 8, 9]),
    ("cleared", &[10]),
    ("truth", &[11, 12, 13, 15]),
    ("allocation", &[14]),
    ("package", &[16]),
    ("price", &[17, 26]),
    ("notation", &[18]),
    ("spread-notation", &[27]),
    ("currency", &[19, 21, 28]),
    ("notional", &[20]),
    ("location", &[22]),
    ("lei", &[23, 24]),
    ("class", &[25]),
];

#[test]
fn forms_inside_a_message() {
    for (word, codes) in FORMS {
        for line in lines(word) {
            for &code in codes {
                try_value(code, &line);
            }
        }
    }
}

/// A malformed value gets 9 with its code, a sound one no 9.
fn try_value(code: u8, line: &Line) {
    let value = value(&line.rest);
    let base = match code {
        26.. => plain_spread("1", "5"),
        _ => plain_package("1", "5"),
    };
    let message = base.with(code, &value).encode();
    let (verdict, element, _) = submit(&opened(), &message);
    let text = format!("{code} {}", line.rest);
    if value.is_empty() {
        assert_eq!((verdict, element), (5, 0), "{text}");
    } else if line.is_yes() {
        let later = order::from_to(10, 13);
        assert!(verdict == 0 || later.contains(&verdict), "{text}");
    } else {
        assert_eq!((verdict, element), (9, code), "{text}");
    }
}

#[test]
fn actions_inside_a_message() {
    for line in lines("action") {
        let value = value(&line.rest);
        let message = plain_package("1", "5").with(2, &value).encode();
        let (verdict, element, _) = submit(&opened(), &message);
        if value.is_empty() {
            assert_eq!((verdict, element), (5, 0));
        } else if line.is_yes() {
            assert!([0, 8, 10, 15].contains(&verdict), "{}", line.rest);
        } else {
            assert_eq!((verdict, element), (6, 2), "{}", line.rest);
        }
    }
}

#[test]
fn status_steps() {
    let mut random = Random::for_test(601);
    let mut asked = 0;
    for line in lines("step") {
        let fields = line.fields();
        let (action, status) = (fields[0], number(fields[1]) as u8);
        let after = matrix::status_after(action, status).map_or("-".to_string(), |s| s.to_string());
        assert_eq!(after, line.answer, "{}", line.rest);
        if status > sdr::PORTED {
            continue;
        }
        asked += 1;
        let mut case = Case::sound(&mut random, action);
        if line.answer == "-" {
            case.break_rules(&mut random, &[Fault::NotAdmitted(status)]);
        }
        while line.answer != "-" && action != "NEWT" && case.rows[case.row].status != status {
            case = Case::sound(&mut random, action);
        }
        let (answer, mut compared) = submit_case(&case);
        if line.answer == "-" {
            assert_eq!(answer.verdict, 15, "{}", line.rest);
            continue;
        }
        assert_eq!(answer.verdict, 0, "{}", line.rest);
        let after = compared.status(case.message.value(1)).status;
        assert_eq!(u64::from(after), number(&line.answer), "{}", line.rest);
    }
    assert_eq!(asked, 7 * 5);
}
