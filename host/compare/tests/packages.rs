//! Packages: quoted by a price or by a spread, each with its notation and
//! currency. What is expected is derived by hand.

use compare::compared::Compared;
use compare::layout::{row_range, u64_at, DAY_CAPS, IDENTIFIER_IN_ROW, NEWLINE_IN_LINE};
use compare::layout::{PRICE_CURRENCY_IN_LINE, PRICE_IN_LINE, SPREAD_CURRENCY_IN_LINE};
use compare::layout::{SPREAD_IN_LINE, TAIL_IN_ROW, TAIL_SIZE, TERMS_IN_LINE, TERMS_IN_ROW};
use compare::message::Message;
use compare::sound::{plain_new, plain_package, plain_short, plain_spread};
use compare::terms::terms_of;
use std::ops::Range;

// The columns of a line: price, notation and currency, then spread, notation
// and currency.
const PRICE_COLUMNS: Range<usize> = PRICE_IN_LINE.start..PRICE_CURRENCY_IN_LINE.end;
const SPREAD_COLUMNS: Range<usize> = SPREAD_IN_LINE.start..SPREAD_CURRENCY_IN_LINE.end;

/// Verdict and element.
type Due = (u8, u8);

/// A fresh ledger of two rows and a tape buffer.
fn opened() -> Compared {
    Compared::opened(2, &DAY_CAPS)
}

/// Verdict and element of one message on a fresh ledger.
fn judged(message: &Message) -> Due {
    let answer = opened().submit(&message.encode());
    (answer.verdict, answer.element)
}

/// Price, notation and currency, or spread, notation and currency, as a line
/// shows them.
fn columns(number: &str, notation: &str, currency: &str) -> String {
    format!("{number:20}{notation:1}{currency:3}")
}

/// The columns of a price and of a spread that are not there.
fn blank() -> String {
    columns("", "", "")
}

/// The masked terms of the plain message with these columns.
fn terms(package: char, price: &str, spread: &str) -> String {
    format!(
        "2024-03-01T10:15:30Z2024-03-042029-03-04Y FF{package}{price}IR0000000001000000 USD  {spread}"
    )
}

/// The line of the plain NEWT with these masked terms.
fn first_line(terms: &str) -> String {
    format!("000000000001            NEWTTRAD2024-03-01T10:15:30Z{terms}\n")
}

// Every combination.

/// A value that an element of a message may have, or none.
type Choice = Option<&'static str>;

const TRUTHS: [Choice; 5] = [
    None,
    Some("True"),
    Some("true"),
    Some("False"),
    Some("false"),
];
/// None, short, and longer than notation 3 allows.
const PRICES: [Choice; 3] = [None, Some("1.50"), Some("-123456789012")];
/// 4 is a notation of spreads alone.
const PRICE_NOTATIONS: [Choice; 4] = [None, Some("1"), Some("3"), Some("4")];
/// None, short, longer than notation 4 allows, longer than 3 and 4 allow.
const SPREADS: [Choice; 4] = [None, Some("012"), Some("-1.5"), Some("123456789012")];
/// 2 is no notation.
const SPREAD_NOTATIONS: [Choice; 5] = [None, Some("1"), Some("3"), Some("4"), Some("2")];
const PRICE_CURRENCIES: [Choice; 2] = [None, Some("EUR")];
const SPREAD_CURRENCIES: [Choice; 2] = [None, Some("JPY")];

/// The messages that have each choice of one more element.
fn with_each(messages: Vec<Message>, code: u8, choices: &[Choice]) -> Vec<Message> {
    let with = |message: &Message, choice: &Choice| match choice {
        Some(value) => message.with(code, value),
        None => message.without(code),
    };
    messages
        .iter()
        .flat_map(|message| choices.iter().map(move |choice| with(message, choice)))
        .collect()
}

fn combinations() -> Vec<Message> {
    let mut messages = vec![plain_new().with(16, "PACKAGE1")];
    for (code, choices) in [
        (15, &TRUTHS[..]),
        (17, &PRICES),
        (18, &PRICE_NOTATIONS),
        (19, &PRICE_CURRENCIES),
        (26, &SPREADS),
        (27, &SPREAD_NOTATIONS),
        (28, &SPREAD_CURRENCIES),
    ] {
        messages = with_each(messages, code, choices);
    }
    messages
}

/// Whether an element's value is one of these.
fn is(message: &Message, code: u8, values: &[&str]) -> bool {
    values.contains(&message.text(code).as_str())
}

fn is_package(message: &Message) -> bool {
    is(message, 15, &["True", "true"])
}

/// Verdict and element due for a combination.
fn due(message: &Message) -> Due {
    let there = |code| message.has(code);
    let is = |code, values: &[&str]| is(message, code, values);
    let package = is_package(message);
    let (price, spread) = (package && there(17), package && there(26));
    let long_price = is(17, &["-123456789012"]) && is(18, &["3"]);
    let long_spread =
        (is(26, &["123456789012"]) && is(27, &["3", "4"])) || (is(26, &["-1.5"]) && is(27, &["4"]));
    // Rules in their order, the elements of a rule rising.
    let rules = [
        (!there(15), (7, 15)),
        (is(18, &["4"]), (9, 18)),
        (is(27, &["2"]), (9, 27)),
        (package && !price && !spread, (11, 17)),
        (price && !there(18), (11, 18)),
        (price && is(18, &["1"]) && !there(19), (11, 19)),
        (spread && !there(27), (11, 27)),
        (spread && is(27, &["1"]) && !there(28), (11, 28)),
        (price && spread, (19, 0)),
        (price && long_price || spread && long_spread, (12, 0)),
    ];
    let first = rules.iter().find(|(broken, _)| *broken);
    first.map_or((0, 0), |(_, due)| *due)
}

/// A price or a spread of the combinations as the line shows it.
fn shown(number: &str) -> &str {
    match number {
        "1.50" => "1.5",
        "012" => "12",
        number => number,
    }
}

/// The columns due for the elements of a price or of a spread.
fn columns_due(message: &Message, [number, notation, currency]: [u8; 3]) -> String {
    if !is_package(message) || !message.has(number) {
        return blank();
    }
    let monetary = is(message, notation, &["1"]);
    let currency = if monetary {
        message.text(currency)
    } else {
        String::new()
    };
    let number = message.text(number);
    columns(shown(&number), &message.text(notation), &currency)
}

/// What an accepted combination leaves: its line, and its row.
fn check_accepted(compared: &Compared, message: &Message) {
    let package = if is_package(message) { 'T' } else { 'F' };
    let price = columns_due(message, [17, 18, 19]);
    let spread = columns_due(message, [26, 27, 28]);
    let due = terms(package, &price, &spread);
    let line = compared.tape();
    assert_eq!(line, first_line(&due).as_bytes(), "{message:?}");
    assert_eq!(line[PRICE_COLUMNS], *price.as_bytes());
    assert_eq!(line[SPREAD_COLUMNS], *spread.as_bytes());
    let row = &compared.ledger()[row_range(0)];
    assert_eq!(row[TERMS_IN_ROW], *due.as_bytes());
    assert_eq!(row[TAIL_IN_ROW], [0; TAIL_SIZE]);
    assert_eq!(terms_of(message, &DAY_CAPS), due.as_bytes());
}

/// How many combinations get each answer. Of the packages, two spellings of
/// 576 each, a price is there with all that it needs in 6 ways, a spread in 15;
/// a price that is missing leaves 6 ways for 18 and 19, a spread that is
/// missing 8 for 27 and 28.
const COUNTS: [(Due, usize); 11] = [
    ((7, 15), 960),
    ((9, 18), 960),
    ((9, 27), 576),
    ((11, 17), 2 * 6 * 8),
    ((11, 18), 2 * (2 * 2) * (4 * 4 * 2)),
    ((11, 19), 2 * 2 * (4 * 4 * 2)),
    ((11, 27), 2 * (6 + 6) * (3 * 2)),
    ((11, 28), 2 * (6 + 6) * 3),
    ((19, 0), 2 * 6 * 15),
    ((12, 0), 2 * (2 * 8 + 6 * 6)),
    ((0, 0), 2 * 576 + 2 * (4 * 8 + 6 * 9)),
];

#[test]
fn every_combination_of_price_and_spread() {
    let combinations = combinations();
    let mut answers = Vec::new();
    for message in &combinations {
        let mut compared = opened();
        let answer = compared.submit(&message.encode());
        let answer = (answer.verdict, answer.element);
        assert_eq!(answer, due(message), "{message:?}");
        if answer == (0, 0) {
            check_accepted(&compared, message);
        }
        answers.push(answer);
    }
    // 5 choices for 15, 3 for 17, 4 for 18, 2 for 19, 4 for 26, 5 for 27 and
    // 2 for 28.
    assert_eq!(combinations.len(), 4_800);
    for (due, count) in COUNTS {
        let found = answers.iter().filter(|answer| **answer == due).count();
        assert_eq!(found, count, "{due:?}");
    }
    assert_eq!(COUNTS.map(|(_, count)| count).iter().sum::<usize>(), 4_800);
}

#[test]
fn elements_that_are_left_out_keep_their_form() {
    let price = plain_package("1", "5");
    let spread = plain_spread("1", "5");
    for (message, code, value) in [
        (plain_new(), 17, "1."),
        (plain_new(), 18, "4"),
        (plain_new(), 19, "usd"),
        (plain_new(), 26, "+1"),
        (plain_new(), 27, "2"),
        (plain_new(), 28, "US"),
        (price.clone(), 27, "5"),
        (price, 28, "USDX"),
        (spread.clone(), 18, "4"),
        (spread, 19, "U D"),
    ] {
        let broken = message.with(code, value);
        assert_eq!(judged(&broken), (9, code), "{code} {value}");
    }
}

// Digits.

/// Spreads, and what is due under notation 1, 3 and 4.
const DIGITS: [(&str, [Due; 3]); 28] = [
    ("0", [(0, 0), (0, 0), (0, 0)]),
    ("-0", [(0, 0), (0, 0), (0, 0)]),
    ("12345", [(0, 0), (0, 0), (0, 0)]),
    ("-99999", [(0, 0), (0, 0), (0, 0)]),
    ("00001", [(0, 0), (0, 0), (0, 0)]),
    ("123456", [(0, 0), (0, 0), (12, 0)]),
    ("-100000", [(0, 0), (0, 0), (12, 0)]),
    ("000001", [(0, 0), (0, 0), (12, 0)]),
    ("000000", [(0, 0), (0, 0), (12, 0)]),
    ("0.5", [(0, 0), (0, 0), (12, 0)]),
    ("-0.0", [(0, 0), (0, 0), (12, 0)]),
    ("1234.5", [(0, 0), (0, 0), (12, 0)]),
    ("12345.0", [(0, 0), (0, 0), (12, 0)]),
    ("12345678901", [(0, 0), (0, 0), (12, 0)]),
    ("-12345678901", [(0, 0), (0, 0), (12, 0)]),
    ("123456789012", [(0, 0), (12, 0), (12, 0)]),
    ("000000000001", [(0, 0), (12, 0), (12, 0)]),
    ("0.1234567890", [(0, 0), (0, 0), (12, 0)]),
    ("0.12345678901", [(0, 0), (12, 0), (12, 0)]),
    ("-1234567890.1", [(0, 0), (0, 0), (12, 0)]),
    ("-1234567890.12", [(0, 0), (12, 0), (12, 0)]),
    ("123456789012345678", [(0, 0), (12, 0), (12, 0)]),
    ("-123456789012345678", [(0, 0), (12, 0), (12, 0)]),
    ("12345.1234567890123", [(0, 0), (12, 0), (12, 0)]),
    ("1234567890123456789", [(9, 26), (9, 26), (9, 26)]),
    ("123456.1234567890123", [(9, 26), (9, 26), (9, 26)]),
    ("0.12345678901234", [(9, 26), (9, 26), (9, 26)]),
    ("-", [(9, 26), (9, 26), (9, 26)]),
];

#[test]
fn digits_of_a_spread() {
    for (spread, dues) in DIGITS {
        for (notation, due) in ["1", "3", "4"].into_iter().zip(dues) {
            let message = plain_spread(notation, spread);
            assert_eq!(judged(&message), due, "{notation} {spread}");
            // Without a package the spread is left out, and 12 does not judge it.
            let left_out = message.with(15, "False");
            assert_eq!(judged(&left_out), dues[0], "{notation} {spread}");
        }
    }
}

/// Each number is held to its own notation.
#[test]
fn a_notation_that_is_left_out_allows_any_number() {
    let long = "123456789012345678";
    for (message, due) in [
        (plain_package("1", "123456").with(27, "4"), (0, 0)),
        (plain_package("1", long).with(27, "4"), (0, 0)),
        (plain_package("1", long).with(27, "3"), (0, 0)),
        (plain_package("3", "123456").with(27, "4"), (0, 0)),
        (plain_package("3", "0.1234567890").with(27, "4"), (0, 0)),
        (plain_package("3", "123456789012").with(27, "1"), (12, 0)),
        (plain_package("3", "123456789012").with(27, "4"), (12, 0)),
        (plain_spread("1", long).with(18, "3"), (0, 0)),
        (plain_spread("3", "12345678901").with(18, "1"), (0, 0)),
        (plain_spread("3", "123456789012").with(18, "1"), (12, 0)),
        (plain_spread("4", "123456").with(18, "1"), (12, 0)),
        (plain_spread("4", "12345").with(18, "3"), (0, 0)),
    ] {
        assert_eq!(judged(&message), due, "{message:?}");
    }
}

// Spreads as shown.

/// Spreads as sent and as a line shows them.
const SHOWN: [(&str, &str); 22] = [
    ("0", "0"),
    ("-0", "0"),
    ("00000", "0"),
    ("-00.00", "0"),
    ("0.0", "0"),
    ("7", "7"),
    ("007", "7"),
    ("-007", "-7"),
    ("007.50", "7.5"),
    ("100", "100"),
    ("100.00", "100"),
    ("0.50", "0.5"),
    ("-0.50", "-0.5"),
    ("00.05", "0.05"),
    ("-00.050", "-0.05"),
    ("10.010", "10.01"),
    ("123456789012345678", "123456789012345678"),
    ("-123456789012345678", "-123456789012345678"),
    ("-12345.1234567890123", "-12345.1234567890123"),
    ("-99999.9999999999999", "-99999.9999999999999"),
    ("00000.0000000000001", "0.0000000000001"),
    ("-00001.1000000000000", "-1.1"),
];

/// The line that a message writes on a fresh ledger.
fn line_of(message: &Message) -> Vec<u8> {
    let mut compared = opened();
    assert_eq!(compared.submit(&message.encode()).verdict, 0, "{message:?}");
    compared.tape().to_vec()
}

#[test]
fn spreads_as_shown() {
    for (spread, shown) in SHOWN {
        let line = line_of(&plain_spread("1", spread));
        let due = columns(shown, "1", "USD");
        assert_eq!(line[SPREAD_COLUMNS], *due.as_bytes(), "{spread}");
        assert_eq!(line[PRICE_COLUMNS], *blank().as_bytes(), "{spread}");
        // A price is shown alike.
        let line = line_of(&plain_package("1", spread));
        assert_eq!(line[PRICE_COLUMNS], *due.as_bytes(), "{spread}");
        assert_eq!(line[SPREAD_COLUMNS], *blank().as_bytes(), "{spread}");
    }
}

#[test]
fn notations_and_currencies_as_shown() {
    let none = blank();
    let whole = plain_spread("1", "5").with(18, "1").with(19, "EUR");
    for (message, price, spread) in [
        (
            plain_spread("1", "-01.250"),
            &none,
            "-1.25               1USD",
        ),
        (
            plain_spread("3", "-01.250"),
            &none,
            "-1.25               3   ",
        ),
        (
            plain_spread("4", "00125"),
            &none,
            "125                 4   ",
        ),
        (
            plain_spread("4", "5").without(28),
            &none,
            "5                   4   ",
        ),
        (whole.clone(), &none, "5                   1USD"),
        (
            plain_package("1", "5").with(27, "1"),
            &columns("5", "1", "USD"),
            &none,
        ),
        (
            plain_package("3", "5").with(28, "EUR"),
            &columns("5", "3", ""),
            &none,
        ),
        // No package: both are blank, whatever is sent.
        (plain_new(), &none, &none),
        (plain_new().with(26, "5"), &none, &none),
        (plain_new().with(17, "4").with(26, "5"), &none, &none),
        (whole.with(15, "False"), &none, &none),
        (whole.with(15, "false").with(17, "4"), &none, &none),
    ] {
        let package = if is_package(&message) { 'T' } else { 'F' };
        let due = first_line(&terms(package, price, spread));
        assert_eq!(line_of(&message), due.as_bytes(), "{message:?}");
    }
}

// The order of rules.

#[test]
fn price_and_spread_in_the_order_of_rules() {
    let both = plain_package("1", "5").with(26, "5").with(27, "4");
    let neither = plain_package("1", "5").without(17);
    let late = "2029-03-05";
    for (message, due) in [
        (both.clone(), (19, 0)),
        // 11 comes before 19, and names the lowest element.
        (both.without(18), (11, 18)),
        (both.without(19), (11, 19)),
        (both.without(27), (11, 27)),
        (both.with(27, "1"), (11, 28)),
        (both.without(16), (11, 16)),
        (both.without(18).without(27), (11, 18)),
        (both.with(10, "N"), (11, 11)),
        // 12 and 13 come after it.
        (both.with(18, "3").with(17, "123456789012"), (19, 0)),
        (both.with(26, "123456"), (19, 0)),
        (both.with(7, late), (19, 0)),
        (both.with(26, "0.5").with(7, late), (19, 0)),
        (plain_spread("4", "123456").with(7, late), (12, 0)),
        (plain_spread("4", "12345").with(7, late), (13, 0)),
        // The rules before 11 come before it too.
        (both.with(3, "ETRM"), (10, 0)),
        (both.with(28, "usd"), (9, 28)),
        (both.without(25), (7, 25)),
        // Neither is 11; 17 is named where no lower element is at fault.
        (neither.clone(), (11, 17)),
        (neither.without(18).without(19), (11, 17)),
        (neither.with(27, "1"), (11, 17)),
        (neither.with(27, "1").with(28, "USD"), (11, 17)),
        (neither.without(16), (11, 16)),
        (neither.without(16).with(10, "N"), (11, 11)),
        (neither.with(10, "N").with(11, "True"), (11, 17)),
        (neither.with(7, late), (11, 17)),
        (neither.with(3, "ETRM"), (10, 0)),
        // A spread needs no price, but the package's identifier.
        (plain_spread("3", "5").without(16), (11, 16)),
        (plain_spread("3", "5").without(28), (0, 0)),
        (plain_spread("1", "5").without(28), (11, 28)),
        (plain_spread("1", "5").without(27), (11, 27)),
        (plain_spread("1", "5").without(27).without(28), (11, 27)),
    ] {
        assert_eq!(judged(&message), due, "{message:?}");
    }
}

/// An unknown swap gets 15 where no rule before it is broken.
#[test]
fn other_full_messages_are_judged_alike() {
    let both = plain_package("1", "5").with(26, "5").with(27, "4");
    for (action, event) in [("MODI", Some("TRAD")), ("CORR", None), ("REVI", None)] {
        let with_action = |message: &Message| match event {
            Some(event) => message.with(2, action).with(3, event),
            None => message.with(2, action).without(3),
        };
        for (message, due) in [
            (both.clone(), (19, 0)),
            (both.without(27), (11, 27)),
            (both.without(17).without(26), (11, 17)),
            (plain_spread("4", "123456"), (12, 0)),
            (plain_spread("4", "12345"), (15, 0)),
            (both.with(15, "False"), (15, 0)),
        ] {
            assert_eq!(judged(&with_action(&message)), due, "{action} {message:?}");
        }
    }
}

#[test]
fn short_messages_take_no_spread() {
    for (action, event) in [
        ("TERM", Some("ETRM")),
        ("EROR", None),
        ("PRTO", Some("PTNG")),
    ] {
        let message = plain_short(action, event);
        for (code, value) in [(26, "5"), (27, "4"), (28, "USD"), (26, "x")] {
            assert_eq!(judged(&message.with(code, value)), (8, code), "{action}");
        }
    }
}

// Row and line over the life of a swap.

/// Submits a message that is accepted. Its line ends in these masked terms,
/// and the row holds them with the identifier.
fn check_step(compared: &mut Compared, message: &Message, identifier: u64, due: &str) {
    let answer = compared.submit(&message.encode());
    assert_eq!((answer.verdict, answer.identifier), (0, identifier));
    assert_eq!(compared.tape()[TERMS_IN_LINE], *due.as_bytes());
    assert_eq!(compared.tape()[NEWLINE_IN_LINE], *b"\n");
    let row = &compared.ledger()[row_range(0)];
    assert_eq!(row[TERMS_IN_ROW], *due.as_bytes());
    assert_eq!(u64_at(row, IDENTIFIER_IN_ROW), identifier);
    assert_eq!(row[TAIL_IN_ROW], [0; TAIL_SIZE]);
}

#[test]
fn from_price_to_spread_and_back() {
    let mut compared = opened();
    let changed = |message: Message| message.with(2, "MODI");
    let corrected = |message: Message| message.with(2, "CORR").without(3);
    let price = terms('T', "7.5                 1USD", &blank());
    let spread = terms('T', &blank(), "-25                 4   ");
    let other = terms('T', &blank(), "0.25                1USD");
    let none = terms('F', &blank(), &blank());
    check_step(&mut compared, &plain_package("1", "07.50"), 1, &price);
    let by_spread = changed(plain_spread("4", "-0025"));
    check_step(&mut compared, &by_spread, 2, &spread);
    // A refusal leaves the spread where it is.
    let both = by_spread.with(17, "7.5").with(18, "3");
    assert_eq!(compared.submit(&both.encode()).verdict, 19);
    let by_spread = corrected(plain_spread("1", "0.250"));
    check_step(&mut compared, &by_spread, 3, &other);
    let by_price = changed(plain_package("1", "7.5"));
    check_step(&mut compared, &by_price, 4, &price);
    let no_package = changed(plain_spread("1", "5").with(15, "False"));
    check_step(&mut compared, &no_package, 5, &none);
    let by_spread = changed(plain_spread("4", "-25"));
    check_step(&mut compared, &by_spread, 6, &spread);
    // TERM and EROR show the stored terms, and REVI brings others.
    let end = plain_short("TERM", Some("ETRM"));
    check_step(&mut compared, &end, 7, &spread);
    check_step(&mut compared, &plain_short("EROR", None), 8, &spread);
    let revived = plain_package("1", "7.5").with(2, "REVI").without(3);
    check_step(&mut compared, &revived, 9, &price);
}
