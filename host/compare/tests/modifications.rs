//! Modifications that show nothing: a MODI that repeats the stored masked
//! terms is accepted, writes no line and changes no byte. What is expected is
//! derived by hand.

use compare::compared::Compared;
use compare::layout::*;
use compare::message::Message;
use compare::sound::{plain_new, plain_package, plain_short, plain_spread, swap};
use sdr::Answer;
use std::collections::BTreeSet;
use std::ops::Range;

/// Where the first row starts.
const ROW: usize = HEADER_SIZE;
/// The bytes of the tape buffers.
const TAPE: usize = LINE_SIZE + 20;

/// A tape buffer with old bytes.
fn old_tape() -> Vec<u8> {
    (0..TAPE).map(|at| b'a' + (at % 26) as u8).collect()
}

/// A ledger of two rows with these caps on which the NEWT was accepted.
fn stored_under(caps: &Caps, new: &Message) -> Compared {
    let mut compared = Compared::opened(2, caps);
    assert_eq!(compared.submit(&new.encode()).identifier, 1, "{new:?}");
    compared
}

fn stored(new: &Message) -> Compared {
    stored_under(&DAY_CAPS, new)
}

fn modi(message: &Message) -> Message {
    message.with(2, "MODI")
}

fn corr(message: &Message) -> Message {
    message.with(2, "CORR").without(3)
}

fn revi(message: &Message) -> Message {
    message.with(2, "REVI").without(3)
}

/// Writes over the ledger, which every side is then lent.
fn damage(compared: &mut Compared, at: usize, bytes: &[u8]) {
    let mut ledger = compared.ledger().to_vec();
    ledger[at..at + bytes.len()].copy_from_slice(bytes);
    compared.set_ledger(&ledger);
}

fn set_next(compared: &mut Compared, next: u64) {
    damage(compared, NEXT_IN_HEADER.start, &next.to_le_bytes());
}

/// Submits a message that leaves every byte and every answer about its swap as
/// they were.
fn check_unchanged(compared: &mut Compared, message: &Message, due: Answer) {
    let (ledger, tape) = (compared.ledger().to_vec(), old_tape());
    compared.set_tape(&tape);
    let status = compared.status(message.value(1));
    assert_eq!(compared.submit(&message.encode()), due, "{message:?}");
    assert!(compared.ledger() == ledger, "{message:?}");
    assert!(compared.tape() == tape, "{message:?}");
    assert_eq!(compared.status(message.value(1)), status, "{message:?}");
}

/// Submits a message that is accepted without a line: 0, 0, 0.
fn check_silent(compared: &mut Compared, message: &Message) {
    check_unchanged(compared, message, Answer::default());
}

fn check_refused(compared: &mut Compared, message: &Message, verdict: u8, element: u8) {
    let due = Answer {
        verdict,
        element,
        ..Answer::default()
    };
    check_unchanged(compared, message, due);
}

/// What a line has to show beside action, event and event timestamp.
struct Line<'a> {
    identifier: u64,
    /// None for NEWT.
    previous: Option<u64>,
    terms: &'a str,
    /// The status of the first row afterwards.
    status: u8,
}

/// Writes another status into the first row, and moves one from the total of
/// the old status to that of the new one.
fn change_status(ledger: &mut [u8], status: u8) {
    let total = |status: u8| TOTALS_IN_HEADER.start + U32_SIZE * total_place(status);
    ledger[total(ledger[ROW + STATUS_IN_ROW])] -= 1;
    ledger[total(status)] += 1;
    ledger[ROW + STATUS_IN_ROW] = status;
}

/// Submits a message about the first row's swap that writes this line, and
/// holds every byte of tape buffer and ledger to it.
fn check_line(compared: &mut Compared, message: &Message, due: &Line) {
    let mut ledger = compared.ledger().to_vec();
    compared.set_tape(&old_tape());
    let answer = compared.submit(&message.encode());
    let accepted = Answer {
        identifier: due.identifier,
        ..Answer::default()
    };
    assert_eq!(answer, accepted, "{message:?}");
    let previous = due.previous.map_or(" ".repeat(12), |n| format!("{n:012}"));
    let line = format!(
        "{:012}{previous}{}{:4}{}{}\n",
        due.identifier,
        message.text(2),
        message.text(3),
        message.text(4),
        due.terms,
    );
    assert_eq!(
        compared.tape()[..LINE_SIZE],
        *line.as_bytes(),
        "{message:?}"
    );
    assert_eq!(
        compared.tape()[LINE_SIZE..],
        old_tape()[LINE_SIZE..],
        "{message:?}"
    );
    ledger[NEXT_IN_HEADER].copy_from_slice(&(due.identifier + 1).to_le_bytes());
    change_status(&mut ledger, due.status);
    let row = &mut ledger[ROW..];
    row[IDENTIFIER_IN_ROW].copy_from_slice(&due.identifier.to_le_bytes());
    row[TERMS_IN_ROW].copy_from_slice(due.terms.as_bytes());
    assert!(compared.ledger() == ledger, "{message:?}");
}

/// A line of a live swap.
fn live(identifier: u64, previous: u64, terms: &str) -> Line<'_> {
    Line {
        identifier,
        previous: Some(previous),
        terms,
        status: 1,
    }
}

// Messages by the masked terms that they show.

/// Messages that show the same masked terms.
struct Alike {
    terms: String,
    messages: Vec<Message>,
}

/// The masked terms of the plain message.
const PLAIN: &str = "2024-03-01T10:15:30Z2024-03-042029-03-04Y FFF                        IR0000000001000000 USD                          ";

/// The terms with another text at this offset of the line.
fn put(terms: &str, offset: usize, text: &str) -> String {
    let at = offset - TERMS_IN_LINE.start;
    format!("{}{text}{}", &terms[..at], &terms[at + text.len()..])
}

/// The terms of the plain message as one of a package with these columns at
/// this offset.
fn packaged(offset: usize, number: &str, notation: &str, currency: &str) -> String {
    let columns = format!("{number:PRICE_SIZE$}{notation:1}{currency:CURRENCY_SIZE$}");
    put(&put(PLAIN, PACKAGE_IN_LINE.start, "T"), offset, &columns)
}

/// What never reaches a line, and other values for it.
const HIDDEN: [(u8, &str); 21] = [
    (3, "NOVA"),
    (3, "COMP"),
    (3, "EXER"),
    (3, "ALOC"),
    (3, "CREV"),
    (3, "CORP"),
    (3, "UPDT"),
    (4, "1900-01-01T00:00:00Z"),
    (4, "9999-12-31T23:59:59Z"),
    (5, "2024-03-01T10:15:30Z"),
    (5, "9999-12-31T23:59:59Z"),
    (9, "2029-03-04"),
    (9, "9999-12-31"),
    (12, "false"),
    (13, "False"),
    (14, "POST"),
    (14, "PREA"),
    (16, "Another9"),
    (23, "EXAMPLEOSTERMOOR0190"),
    (23, "213800WSGIIZCXF1P572"),
    (24, "EXAMPLEBRACKWATER111"),
];

/// The message, and the message with each and with all of these changes.
fn with_each(message: &Message, changes: &[(u8, &str)]) -> Vec<Message> {
    let mut messages = vec![message.clone()];
    let mut whole = message.clone();
    for (code, value) in changes {
        messages.push(message.with(*code, value));
        whole.set(*code, value);
    }
    messages.push(whole);
    messages
}

/// The message with each of these values of an element.
fn with_values(message: &Message, code: u8, values: &[&str]) -> Vec<Message> {
    let with = |value: &&str| message.with(code, value);
    values.iter().map(with).collect()
}

/// What is left out where there is no package and the swap is cleared.
const LEFT_OUT: [(u8, &str); 11] = [
    (11, "True"),
    (11, "false"),
    (15, "false"),
    (16, "P"),
    (17, "-12.5"),
    (18, "3"),
    (18, "1"),
    (19, "EUR"),
    (26, "123456"),
    (27, "4"),
    (28, "JPY"),
];

/// Amounts as shown, with a plus sign or a space, and such that are shown so
/// under the cap of 250,000,000.
const AMOUNTS: [(&str, &[&str]); 9] = [
    (
        "0000000000000005 ",
        &["0", "0.00000", "2.49999", "5", "7.49999", "00005"],
    ),
    ("0000000000000010 ", &["7.5", "10", "12.49999"]),
    (
        "0000000000001000 ",
        &["997.5", "1000", "1049.99999", "01000"],
    ),
    ("0000000000990000 ", &["985000", "994999.99999"]),
    (
        "0000000001000000 ",
        &[
            "995000",
            "1000000",
            "001000000.0",
            "1000000.00000",
            "00000000000001000000.00000",
            "1000000.00001",
            "1499999.99999",
        ],
    ),
    ("0000000002000000 ", &["1500000", "2499999.99999"]),
    ("0000000240000000 ", &["235000000", "244999999.99999"]),
    (
        "0000000250000000 ",
        &["245000000", "249999999.99999", "250000000", "0250000000.0"],
    ),
    (
        "0000000250000000+",
        &[
            "250000000.00001",
            "250400000",
            "251000000",
            "00300000000.5",
            "9999999999999999999999999",
        ],
    ),
];

/// Prices or spreads as shown, and such that are shown so.
const NUMBERS: [(&str, &[&str]); 8] = [
    ("7.5", &["7.5", "007.50", "7.5000000000000", "07.5"]),
    ("-7.5", &["-7.5", "-07.50"]),
    ("7.51", &["7.51"]),
    ("75", &["75", "75.0", "00075.00"]),
    ("0", &["0", "-0", "-0.00", "000", "0.0"]),
    ("-0.5", &["-0.50", "-0.5", "-00.5"]),
    ("0.5", &["0.5", "00.50"]),
    ("-99999.9999999999999", &["-99999.9999999999999"]),
];

/// What is left out beside a price or a spread in money.
const BESIDE_A_PRICE: [(u8, &str); 4] = [(15, "true"), (27, "1"), (27, "4"), (28, "EUR")];
const BESIDE_A_SPREAD: [(u8, &str); 4] = [(15, "true"), (18, "1"), (18, "3"), (19, "EUR")];

fn plain_groups() -> Vec<Alike> {
    let mut same = with_each(&plain_new(), &HIDDEN);
    same.extend(with_each(&plain_new(), &LEFT_OUT));
    let mut groups = Vec::new();
    for (shown, amounts) in AMOUNTS {
        let mut messages = with_values(&plain_new(), 20, amounts);
        if shown == "0000000001000000 " {
            messages.append(&mut same);
        }
        let terms = put(PLAIN, NOTIONAL_IN_LINE.start, shown);
        groups.push(Alike { terms, messages });
    }
    assert!(same.is_empty());
    groups
}

/// Groups that differ from the plain one in one field.
fn groups_of_one_field() -> Vec<Alike> {
    let changes: [(u8, &str, usize); 10] = [
        (7, "2024-03-05", EFFECTIVE_IN_LINE.start),
        (7, "2023-03-04", EFFECTIVE_IN_LINE.start),
        (8, "2029-03-05", EXPIRATION_IN_LINE.start),
        (12, "True", BLOCK_IN_LINE.start),
        (13, "True", LARGE_IN_LINE.start),
        (21, "EUR", NOTIONAL_CURRENCY_IN_LINE.start),
        (21, "USN", NOTIONAL_CURRENCY_IN_LINE.start),
        (22, "US", LOCATION_IN_LINE.start),
        (22, "GB", LOCATION_IN_LINE.start),
        (25, "FX", CLASS_IN_LINE.start),
    ];
    let group = |(code, value, offset): (u8, &str, usize)| {
        let shown = if value == "True" { "T" } else { value };
        let message = plain_new().with(code, value);
        Alike {
            terms: put(PLAIN, offset, shown),
            messages: with_each(&message, &HIDDEN[..11]),
        }
    };
    changes.map(group).into()
}

fn cleared_groups() -> Vec<Alike> {
    let indirect = plain_new().with(10, "I");
    let not_cleared = plain_new().with(10, "N");
    let groups = [
        ("I ", with_each(&indirect, &LEFT_OUT[..3])),
        ("NT", with_values(&not_cleared, 11, &["True", "true"])),
        ("NF", with_values(&not_cleared, 11, &["False", "false"])),
    ];
    let group = |(shown, messages)| Alike {
        terms: put(PLAIN, CLEARED_IN_LINE.start, shown),
        messages,
    };
    groups.map(group).into()
}

/// Packages in money: every number, then other currencies.
fn money_groups(
    package: fn(&str, &str) -> Message,
    currency: u8,
    offset: usize,
    left_out: &[(u8, &str)],
) -> Vec<Alike> {
    let number = currency - 2;
    let mut groups: Vec<Alike> = NUMBERS
        .iter()
        .map(|(shown, numbers)| {
            let message = package("1", numbers[0]);
            let mut messages = with_values(&message, number, numbers);
            messages.extend(with_each(&message, left_out));
            if *shown == "7.5" {
                messages.extend(with_each(&message, &HIDDEN));
            }
            Alike {
                terms: packaged(offset, shown, "1", "USD"),
                messages,
            }
        })
        .collect();
    groups.push(Alike {
        terms: packaged(offset, "7.5", "1", "EUR"),
        messages: vec![package("1", "7.50").with(currency, "EUR")],
    });
    groups
}

/// Packages by a notation without a currency. A currency may be sent.
fn groups_without_currency() -> Vec<Alike> {
    let with_and_without = |message: Message, currency: u8| {
        let mut messages = with_values(&message, currency, &["USD", "EUR"]);
        messages.push(message.without(currency));
        messages
    };
    let group = |field: Range<usize>, shown, notation, message, currency| Alike {
        terms: packaged(field.start, shown, notation, ""),
        messages: with_and_without(message, currency),
    };
    vec![
        group(PRICE_IN_LINE, "7", "3", plain_package("3", "07.0"), 19),
        group(SPREAD_IN_LINE, "7", "3", plain_spread("3", "7.00"), 28),
        group(SPREAD_IN_LINE, "7", "4", plain_spread("4", "007"), 28),
        group(SPREAD_IN_LINE, "-7", "4", plain_spread("4", "-7"), 28),
    ]
}

fn groups() -> Vec<Alike> {
    let mut groups = plain_groups();
    groups.extend(groups_of_one_field());
    groups.extend(cleared_groups());
    groups.extend(money_groups(
        plain_package,
        19,
        PRICE_IN_LINE.start,
        &BESIDE_A_PRICE,
    ));
    groups.extend(money_groups(
        plain_spread,
        28,
        SPREAD_IN_LINE.start,
        &BESIDE_A_SPREAD,
    ));
    groups.extend(groups_without_currency());
    groups
}

/// A NEWT has no event CREV.
fn as_new(message: &Message) -> Message {
    message.with(3, "TRAD")
}

/// Every message of the groups stored, and every one behind it as a MODI.
#[test]
fn every_pair_of_messages() {
    let groups = groups();
    let (mut silent, mut lines) = (0, 0);
    for before in &groups {
        for message in &before.messages {
            let new = stored(&as_new(message)).ledger().to_vec();
            assert_eq!(new[ROW..][TERMS_IN_ROW], *before.terms.as_bytes());
            let mut compared = Compared::new();
            for after in &groups {
                for next in &after.messages {
                    compared.set_ledger(&new);
                    if after.terms == before.terms {
                        check_silent(&mut compared, &modi(next));
                        silent += 1;
                    } else {
                        check_line(&mut compared, &modi(next), &live(2, 1, &after.terms));
                        lines += 1;
                    }
                }
            }
        }
    }
    println!("{} groups, {silent} silent, {lines} lines", groups.len());
    assert!(silent > 2_000 && lines > 20_000);
}

/// The groups are apart, and for each field of the masked terms there are two
/// that differ in it alone. A package shows a number too, and money a
/// currency: what the indicator and the price notation change is never alone.
#[test]
fn every_field_is_told_apart() {
    let groups = groups();
    // A MODI cannot change the execution timestamp.
    let changing = &FIELDS_OF_TERMS[1..];
    let mut alone = BTreeSet::new();
    for (n, one) in groups.iter().enumerate() {
        assert_eq!(one.terms.len(), TERMS_SIZE);
        for other in &groups[n + 1..] {
            let (one, other) = (one.terms.as_bytes(), other.terms.as_bytes());
            let differs = |field: &&Range<usize>| {
                let field = field.start - TERMS_IN_LINE.start..field.end - TERMS_IN_LINE.start;
                one[field.clone()] != other[field]
            };
            let fields: Vec<_> = changing.iter().filter(differs).collect();
            assert!(!fields.is_empty());
            if let [field] = fields[..] {
                alone.insert(field.start);
            }
        }
    }
    let due = changing.iter().map(|field| field.start);
    let due = due
        .filter(|&start| ![PACKAGE_IN_LINE.start, PRICE_NOTATION_IN_LINE.start].contains(&start));
    assert!(alone.into_iter().eq(due));
}

// Damaged rows.

/// Three messages and their masked terms.
fn bases() -> [(Message, String); 3] {
    [
        (plain_new(), PLAIN.to_string()),
        (
            plain_package("1", "7.5"),
            packaged(PRICE_IN_LINE.start, "7.5", "1", "USD"),
        ),
        (
            plain_spread("4", "-25").without(28),
            packaged(SPREAD_IN_LINE.start, "-25", "4", ""),
        ),
    ]
}

#[test]
fn each_bit_of_the_stored_terms() {
    for (message, terms) in bases() {
        let sound = stored(&message).ledger().to_vec();
        let mut compared = Compared::new();
        for at in TERMS_IN_ROW {
            for bit in 0..8 {
                compared.set_ledger(&sound);
                damage(&mut compared, ROW + at, &[sound[ROW + at] ^ 1 << bit]);
                // The terms open with the execution timestamp.
                if at < TERMS_IN_ROW.start + TIME_SIZE {
                    check_refused(&mut compared, &modi(&message), 16, 0);
                } else {
                    check_line(&mut compared, &modi(&message), &live(2, 1, &terms));
                    check_silent(&mut compared, &modi(&message));
                }
            }
        }
    }
}

#[test]
fn bytes_of_the_row_that_are_not_compared() {
    for (message, _) in bases() {
        let mut compared = stored(&message);
        let padding = UTI_IN_ROW.start + message.value(1).len()..UTI_IN_ROW.end;
        for at in padding.chain(TAIL_IN_ROW) {
            let byte = compared.ledger()[ROW + at];
            damage(&mut compared, ROW + at, &[byte ^ 0xff]);
            check_silent(&mut compared, &modi(&message));
        }
        // The identifier may be any below the next one.
        set_next(&mut compared, 70);
        for identifier in [1, 2, 69_u64] {
            let at = ROW + IDENTIFIER_IN_ROW.start;
            damage(&mut compared, at, &identifier.to_le_bytes());
            check_silent(&mut compared, &modi(&message));
        }
        let line = put(PLAIN, NOTIONAL_CURRENCY_IN_LINE.start, "EUR");
        let other = modi(&plain_new().with(21, "EUR"));
        check_line(&mut compared, &other, &live(70, 69, &line));
    }
}

/// The swap's own row counts: not another one, and not the second of two.
#[test]
fn rows_of_other_swaps() {
    let euro = |n: u64| swap(n).with(21, "EUR");
    let mut compared = stored(&swap(1));
    assert_eq!(compared.submit(&euro(2).encode()).identifier, 2);
    check_silent(&mut compared, &modi(&swap(1)));
    check_silent(&mut compared, &modi(&euro(2)));
    // Both rows with the name of the first swap.
    let mut twice = Compared::new();
    twice.set_ledger(compared.ledger());
    let name = compared.ledger()[ROW + LENGTH_IN_ROW..ROW + UTI_IN_ROW.end].to_vec();
    damage(&mut twice, ROW + ROW_SIZE + LENGTH_IN_ROW, &name);
    check_silent(&mut twice, &modi(&swap(1)));
    check_line(
        &mut twice,
        &modi(&euro(1)),
        &live(3, 1, &put(PLAIN, NOTIONAL_CURRENCY_IN_LINE.start, "EUR")),
    );
    // What the second swap shows is new for the first one.
    check_line(
        &mut compared,
        &modi(&euro(1)),
        &live(3, 1, &put(PLAIN, NOTIONAL_CURRENCY_IN_LINE.start, "EUR")),
    );
    check_silent(&mut compared, &modi(&euro(2)));
}

// Other actions, and one message after the other.

#[test]
fn other_actions_repeat_the_terms_with_a_line() {
    let plain = plain_new();
    let line = |identifier: u64, status: u8| Line {
        identifier,
        previous: Some(identifier - 1),
        terms: PLAIN,
        status,
    };
    let mut compared = stored(&plain);
    let term = plain_short("TERM", Some("ETRM"));
    for (message, identifier, status) in [
        (corr(&plain), 2, 1),
        (corr(&plain), 3, 1),
        (term.clone(), 4, 2),
        (corr(&plain), 5, 2),
        (revi(&plain), 6, 1),
        (plain_short("EROR", None), 7, 3),
        (revi(&plain), 8, 1),
        (term, 9, 2),
        (plain_short("EROR", None), 10, 3),
        (revi(&plain), 11, 1),
    ] {
        check_line(&mut compared, &message, &line(identifier, status));
        if status == 1 {
            check_silent(&mut compared, &modi(&plain));
            check_silent(&mut compared, &modi(&plain).with(3, "UPDT"));
        } else {
            check_refused(&mut compared, &modi(&plain), 15, 0);
        }
    }
    // A new swap with the terms of another has its line.
    let answer = compared.submit(&swap(2).encode());
    assert_eq!((answer.verdict, answer.identifier), (0, 12));
    // PRTO changes the status alone, with its totals, and has none.
    let mut ledger = compared.ledger().to_vec();
    change_status(&mut ledger, 4);
    let ported = compared.submit(&plain_short("PRTO", Some("PTNG")).encode());
    assert_eq!(ported, Answer::default());
    assert_eq!(compared.ledger(), ledger);
    check_refused(&mut compared, &modi(&plain), 15, 0);
}

/// The stored terms are those of the last line, and so is the identifier.
#[test]
fn one_modification_after_the_other() {
    let (plain, euro) = (plain_new(), plain_new().with(21, "EUR"));
    let in_euro = put(PLAIN, NOTIONAL_CURRENCY_IN_LINE.start, "EUR");
    let mut compared = stored(&plain);
    for _ in 0..3 {
        check_silent(&mut compared, &modi(&plain).with(14, "PREA"));
    }
    check_line(&mut compared, &modi(&euro), &live(2, 1, &in_euro));
    check_silent(&mut compared, &modi(&euro));
    check_line(&mut compared, &modi(&plain), &live(3, 2, PLAIN));
    check_silent(&mut compared, &modi(&plain).with(20, "1400000"));
    // After a correction, its terms count.
    check_line(&mut compared, &corr(&euro), &live(4, 3, &in_euro));
    check_silent(&mut compared, &modi(&euro));
    check_line(&mut compared, &modi(&plain), &live(5, 4, PLAIN));
    // A refusal stores nothing.
    check_refused(&mut compared, &modi(&euro).without(23), 7, 23);
    check_silent(&mut compared, &modi(&plain));
    // After an error, the revived ones.
    let errored = Line {
        status: 3,
        ..live(6, 5, PLAIN)
    };
    check_line(&mut compared, &plain_short("EROR", None), &errored);
    check_refused(&mut compared, &modi(&plain), 15, 0);
    check_line(&mut compared, &revi(&euro), &live(7, 6, &in_euro));
    check_silent(&mut compared, &modi(&euro));
    check_line(&mut compared, &modi(&plain), &live(8, 7, PLAIN));
    // The termination shows the terms of the last line.
    check_silent(&mut compared, &modi(&plain).with(16, "P"));
    let closed = Line {
        status: 2,
        ..live(9, 8, PLAIN)
    };
    check_line(&mut compared, &plain_short("TERM", Some("ETRM")), &closed);
}

/// A correction may mend the execution timestamp, which MODI then repeats.
#[test]
fn a_mended_execution_timestamp() {
    let mended = plain_new().with(6, "2024-03-01T10:15:29Z");
    let terms = put(PLAIN, EXECUTION_IN_LINE.start, "2024-03-01T10:15:29Z");
    let mut compared = stored(&plain_new());
    check_refused(&mut compared, &modi(&mended), 16, 0);
    check_line(&mut compared, &corr(&mended), &live(2, 1, &terms));
    check_refused(&mut compared, &modi(&plain_new()), 16, 0);
    check_silent(&mut compared, &modi(&mended));
}

// Identifiers and rules.

#[test]
fn the_last_identifiers() {
    let (plain, euro) = (plain_new(), plain_new().with(21, "EUR"));
    let in_euro = put(PLAIN, NOTIONAL_CURRENCY_IN_LINE.start, "EUR");
    let mut compared = stored(&plain);
    set_next(&mut compared, IDENTIFIER_LIMIT - 1);
    // The last identifier is not taken in vain.
    check_silent(&mut compared, &modi(&plain));
    check_silent(
        &mut compared,
        &modi(&plain).with(24, "EXAMPLEBRACKWATER111"),
    );
    check_line(
        &mut compared,
        &modi(&euro),
        &live(IDENTIFIER_LIMIT - 1, 1, &in_euro),
    );
    // All are spent.
    check_silent(&mut compared, &modi(&euro));
    for message in [
        modi(&plain),
        corr(&euro),
        plain_short("TERM", Some("ETRM")),
        plain_short("EROR", None),
        swap(2),
    ] {
        check_refused(&mut compared, &message, 18, 0);
        check_silent(&mut compared, &modi(&euro).with(3, "NOVA"));
    }
    let ported = compared.submit(&plain_short("PRTO", Some("PTNG")).encode());
    assert_eq!(ported, Answer::default());
    check_refused(&mut compared, &modi(&euro), 15, 0);
}

/// MODI messages whose masked terms are those of `plain_package("3", "7.5")`
/// or would be, each of which breaks a rule that needs no ledger.
fn refused_by_themselves() -> Vec<(Message, (u8, u8))> {
    let same = modi(&plain_package("3", "7.5"));
    vec![
        (same.with(14, ""), (5, 0)),
        (same.with(2, "Modi"), (6, 2)),
        (same.without(5), (7, 5)),
        (same.without(9), (7, 9)),
        (same.without(14), (7, 14)),
        (same.without(23), (7, 23)),
        (same.with(23, "EXAMPLEOSTERMOOR0191"), (9, 23)),
        (same.with(19, "usd"), (9, 19)),
        (same.with(11, "TRUE"), (9, 11)),
        (same.with(28, "CNH"), (9, 28)),
        (same.with(3, "ETRM"), (10, 0)),
        (same.without(3), (10, 0)),
        (same.without(16), (11, 16)),
        (same.with(26, "5").with(27, "4"), (19, 0)),
        (same.with(17, "00000000007.5"), (12, 0)),
        (same.with(17, "7.50000000000"), (12, 0)),
        (same.with(9, "2029-03-03"), (13, 0)),
        (same.with(5, "2024-03-01T10:15:29Z"), (13, 0)),
        (same.with(1, "1000000000SWAP0000000009"), (15, 0)),
        (same.with(6, "2024-03-01T10:15:29Z"), (16, 0)),
    ]
}

/// Every rule before 18 is judged as for other messages, and first.
#[test]
fn refusals_come_first() {
    let same = plain_package("3", "7.5");
    for next in [2, IDENTIFIER_LIMIT] {
        let mut compared = stored(&same);
        set_next(&mut compared, next);
        for (message, (verdict, element)) in refused_by_themselves() {
            check_refused(&mut compared, &message, verdict, element);
        }
        check_silent(&mut compared, &modi(&same));
        let sound = compared.ledger().to_vec();
        for (at, bytes, verdict) in damages(next) {
            compared.set_ledger(&sound);
            damage(&mut compared, at, &bytes);
            check_refused(&mut compared, &modi(&same), verdict, 0);
        }
        for status in [2, 3, 4] {
            let mut ledger = sound.clone();
            change_status(&mut ledger, status);
            compared.set_ledger(&ledger);
            check_refused(&mut compared, &modi(&same), 15, 0);
        }
    }
}

/// Bytes of a ledger with this next identifier that break 3 or 14, and where
/// they stand.
fn damages(next: u64) -> Vec<(usize, Vec<u8>, u8)> {
    let (status, identifier) = (ROW + STATUS_IN_ROW, ROW + IDENTIFIER_IN_ROW.start);
    let after_last = (IDENTIFIER_LIMIT + 1).to_le_bytes();
    let damages: [(usize, &[u8], u8); 13] = [
        (ROWS_IN_HEADER.start, &[3], 3),
        (ROWS_IN_HEADER.start, &[2], 3),
        (TOTALS_IN_HEADER.start, &[2], 3),
        (NEXT_IN_HEADER.start, &after_last, 3),
        (CAPS_IN_HEADER.start, &251_000_000_u64.to_le_bytes(), 3),
        (status, &[0], 14),
        (status, &[5], 14),
        // No swap is counted under these statuses.
        (status, &[2], 14),
        (status, &[3], 14),
        (status, &[4], 14),
        (identifier, &0_u64.to_le_bytes(), 14),
        (identifier, &next.to_le_bytes(), 14),
        (identifier, &u64::MAX.to_le_bytes(), 14),
    ];
    let owned = damages.map(|(at, bytes, verdict)| (at, bytes.to_vec(), verdict));
    owned.to_vec()
}

/// The tape buffer has to take a line, though none is written.
#[test]
fn a_tape_buffer_that_is_too_short() {
    let mut compared = stored(&plain_new());
    let ledger = compared.ledger().to_vec();
    for (length, verdict) in [(0, 4), (LINE_SIZE - 1, 4), (LINE_SIZE, 0)] {
        let tape = vec![b'x'; length];
        compared.set_tape(&tape);
        let due = Answer {
            verdict,
            ..Answer::default()
        };
        assert_eq!(compared.submit(&modi(&plain_new()).encode()), due);
        assert_eq!(compared.ledger(), ledger);
        assert_eq!(compared.tape(), tape);
    }
}

/// 17 asks NEWT alone.
#[test]
fn a_full_ledger() {
    let mut compared = stored(&plain_new());
    assert_eq!(compared.submit(&swap(2).encode()).identifier, 2);
    check_refused(&mut compared, &swap(3), 17, 0);
    check_silent(&mut compared, &modi(&plain_new()));
    check_silent(&mut compared, &modi(&swap(2)));
}

// Caps.

/// Two amounts, a cap, and what the line of the second shows, if it has one.
const CAPPED: [(&str, &str, u64, Option<&str>); 8] = [
    ("300000000", "350000000", 250_000_000, None),
    (
        "300000000",
        "350000000",
        1_000_000_000,
        Some("0000000350000000 "),
    ),
    (
        "300000000",
        "350000000",
        310_000_000,
        Some("0000000310000000+"),
    ),
    ("250000000.00001", "9000000000000", 250_000_000, None),
    (
        "250000000",
        "250000000.00001",
        250_000_000,
        Some("0000000250000000+"),
    ),
    ("250000000", "250000000.00001", 1_000_000_000, None),
    ("1001", "1049", 1_000, None),
    ("1001", "1050", 10_000, Some("0000000000001100 ")),
];

/// The same pair of messages shows nothing under one cap and something under
/// another.
#[test]
fn amounts_under_two_caps() {
    for (first, second, cap, shown) in CAPPED {
        // The plain swap's class is IR, the second.
        let mut caps = [5_000, 0, 5_000, 5_000, 5_000];
        caps[1] = cap;
        let mut compared = stored_under(&caps, &plain_new().with(20, first));
        let message = modi(&plain_new().with(20, second));
        match shown {
            None => check_silent(&mut compared, &message),
            Some(shown) => {
                let terms = put(PLAIN, NOTIONAL_IN_LINE.start, shown);
                check_line(&mut compared, &message, &live(2, 1, &terms));
            }
        }
    }
}

/// The terms are those under the caps that the header holds now.
#[test]
fn caps_that_a_host_has_changed() {
    let message = plain_new().with(20, "300000000");
    let mut compared = stored(&message);
    check_silent(&mut compared, &modi(&message));
    damage(
        &mut compared,
        CAPS_IN_HEADER.start + 8,
        &1_000_000_000_u64.to_le_bytes(),
    );
    let terms = put(PLAIN, NOTIONAL_IN_LINE.start, "0000000300000000 ");
    check_line(&mut compared, &modi(&message), &live(2, 1, &terms));
    check_silent(&mut compared, &modi(&message));
}

// Document 000, Appendix F, example 1.

/// The terms of the example with this amount as shown; what the example does
/// not say is the plain message's.
fn example_terms(amount: &str) -> String {
    let terms = put(PLAIN, EXECUTION_IN_LINE.start, "2018-04-01T14:15:36Z");
    put(&terms, NOTIONAL_IN_LINE.start, amount)
}

/// New, amended, updated, corrected. The update is not disseminated. The
/// element that it brings and the correction mends is none of ours; another
/// that is not shown stands for it. The correction names the line before it.
#[test]
fn the_first_example_of_appendix_f() {
    let mut new = plain_new();
    new.set(4, "2018-04-01T14:15:36Z")
        .set(5, "2018-04-01T14:18:36Z")
        .set(6, "2018-04-01T14:15:36Z")
        .set(20, "10000");
    let amended = modi(&new).with(4, "2018-04-02T10:22:10Z").with(20, "9000");
    let updated = amended.with(4, "2018-04-03T15:01:02Z").with(14, "PREA");
    let corrected = corr(&updated)
        .with(4, "2018-04-04T17:20:30Z")
        .with(14, "POST");
    let mut compared = stored(&new);
    let first = format!(
        "000000000001            NEWTTRAD2018-04-01T14:15:36Z{}\n",
        example_terms("0000000000010000 ")
    );
    assert_eq!(compared.tape(), first.as_bytes());
    let terms = example_terms("0000000000009000 ");
    check_line(&mut compared, &amended, &live(2, 1, &terms));
    check_silent(&mut compared, &updated);
    check_line(&mut compared, &corrected, &live(3, 2, &terms));
}
