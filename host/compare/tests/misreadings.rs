//! Five misreadings of the specification, one test each. What is expected is
//! derived by hand.

use compare::compared::Compared;
use compare::layout::{row_range, u32_at, u64_at, IDENTIFIER_LIMIT, LARGEST_CAP, LINE_SIZE};
use compare::layout::{ACTION_IN_LINE, NEWLINE_IN_LINE, NOTIONAL_IN_LINE, PLUS_IN_LINE};
use compare::layout::{IDENTIFIER_IN_ROW, STATUS_IN_ROW, TERMS_IN_LINE, TERMS_IN_ROW};
use compare::layout::{NEXT_IN_HEADER, ROWS_IN_HEADER, TOTALS_IN_HEADER};
use compare::lists::CLASSES;
use compare::sound::{plain_new, plain_short, swap};
use sdr::{ERRORED, LIVE};

/// A fresh ledger of three rows with all caps alike, and a tape buffer.
fn opened(cap: u64) -> Compared {
    Compared::opened(3, &[cap; CLASSES.len()])
}

/// Status, last identifier and terms of the first row.
fn first_row(compared: &Compared) -> (u8, u64, &[u8]) {
    let row = &compared.ledger()[row_range(0)];
    (
        row[STATUS_IN_ROW],
        u64_at(row, IDENTIFIER_IN_ROW),
        &row[TERMS_IN_ROW],
    )
}

/// Rows in use and next identifier.
fn counts(compared: &Compared) -> (u32, u64) {
    let ledger = compared.ledger();
    (
        u32_at(ledger, ROWS_IN_HEADER),
        u64_at(ledger, NEXT_IN_HEADER),
    )
}

#[test]
fn the_exact_amount_is_compared_with_the_cap() {
    let mut compared = opened(250_000_000);
    let message = plain_new().with(20, "250400000");
    let answer = compared.submit(&message.encode());
    assert_eq!((answer.verdict, answer.identifier), (0, 1));
    let mut line = b"000000000001            NEWTTRAD2024-03-01T10:15:30Z\
        2024-03-01T10:15:30Z2024-03-042029-03-04Y FFF                        IR\
        0000000250000000+USD"
        .to_vec();
    line.resize(NEWLINE_IN_LINE.start, b' ');
    line.push(b'\n');
    assert_eq!(compared.tape(), line);
    assert_eq!(first_row(&compared), (LIVE, 1, &line[TERMS_IN_LINE]));
    assert_eq!(counts(&compared), (1, 2));

    // Equal to the cap shows no plus, though it is shown alike.
    let message = swap(2).with(20, "250000000");
    assert_eq!(compared.submit(&message.encode()).identifier, 2);
    assert_eq!(compared.tape()[NOTIONAL_IN_LINE], *b"0000000250000000");
    assert_eq!(compared.tape()[PLUS_IN_LINE], *b" ");
}

#[test]
fn a_notional_of_25_digits_goes_in() {
    let mut compared = opened(LARGEST_CAP);
    // In 64 bits this is 2^64 + 5 * 10^9, which would wrap to 5,000,000,000.
    let message = plain_new().with(20, "18446744078709551616");
    assert_eq!(compared.submit(&message.encode()).verdict, 0);
    assert_eq!(compared.tape()[NOTIONAL_IN_LINE], *b"1000000000000000");
    assert_eq!(compared.tape()[PLUS_IN_LINE], *b"+");

    // Counted in the fifth decimal place, 10^15 is beyond 64 bits.
    let message = swap(2).with(20, "00000999974999999999.99999");
    assert_eq!(compared.submit(&message.encode()).verdict, 0);
    assert_eq!(compared.tape()[NOTIONAL_IN_LINE], *b"0999950000000000");
    assert_eq!(compared.tape()[PLUS_IN_LINE], *b" ");

    let message = swap(3).with(20, "9999999999999999999999999");
    assert_eq!(compared.submit(&message.encode()).verdict, 0);
    assert_eq!(compared.tape()[NOTIONAL_IN_LINE], *b"1000000000000000");
    assert_eq!(compared.tape()[PLUS_IN_LINE], *b"+");
}

#[test]
fn only_revi_brings_back_an_errored_swap() {
    let mut compared = opened(250_000_000);
    let new = plain_new();
    assert_eq!(compared.submit(&new.encode()).identifier, 1);
    assert_eq!(
        compared
            .submit(&plain_short("EROR", None).encode())
            .identifier,
        2
    );
    assert_eq!(first_row(&compared).0, ERRORED);

    let again = compared.submit(&new.encode());
    assert_eq!((again.verdict, again.element, again.identifier), (15, 0, 0));
    assert_eq!(first_row(&compared).0, ERRORED);
    assert_eq!(counts(&compared), (1, 3));

    let revive = new.with(2, "REVI").without(3);
    assert_eq!(compared.submit(&revive.encode()).identifier, 3);
    assert_eq!(
        compared.tape()[..ACTION_IN_LINE.end],
        *b"000000000003000000000002REVI"
    );
    let (status, identifier, _) = first_row(&compared);
    assert_eq!((status, identifier), (LIVE, 3));
    assert_eq!(counts(&compared), (1, 4));
}

#[test]
fn the_form_is_checked_before_the_status() {
    let mut compared = opened(250_000_000);
    // An unknown swap is modified (15) with a malformed currency (9).
    let message = plain_new().with(2, "MODI").with(21, "usd");
    let answer = compared.submit(&message.encode());
    assert_eq!((answer.verdict, answer.element), (9, 21));
    let answer = compared.submit(&message.with(21, "USD").encode());
    assert_eq!((answer.verdict, answer.element), (15, 0));
    assert_eq!(counts(&compared), (0, 1));
    assert_eq!(compared.tape(), [b'x'; LINE_SIZE]);
}

#[test]
fn spent_identifiers_are_found_before_the_row_is_written() {
    let mut compared = opened(250_000_000);
    assert_eq!(compared.submit(&plain_new().encode()).identifier, 1);
    let mut ledger = compared.ledger().to_vec();
    ledger[NEXT_IN_HEADER].copy_from_slice(&IDENTIFIER_LIMIT.to_le_bytes());
    compared.set_ledger(&ledger);
    compared.set_tape(&[b'x'; LINE_SIZE]);

    let changed = plain_new().with(2, "MODI").with(21, "EUR");
    let ended = plain_short("TERM", Some("ETRM"));
    let wrong = plain_short("EROR", None);
    for message in [swap(2), changed, ended, wrong] {
        let answer = compared.submit(&message.encode());
        assert_eq!(
            (answer.verdict, answer.element, answer.identifier),
            (18, 0, 0)
        );
        assert_eq!(compared.ledger(), ledger);
        assert_eq!(compared.tape(), [b'x'; LINE_SIZE]);
    }

    // PRTO writes no line and is still accepted: only the status changes, and
    // with it the totals.
    let answer = compared.submit(&plain_short("PRTO", Some("PTNG")).encode());
    assert_eq!((answer.verdict, answer.identifier), (0, 0));
    ledger[row_range(0)][STATUS_IN_ROW] = sdr::PORTED;
    ledger[TOTALS_IN_HEADER].copy_from_slice(&[0, 0, 0, 0, 0, 0, 0, 0, 0, 0, 0, 0, 1, 0, 0, 0]);
    assert_eq!(compared.ledger(), ledger);
    assert_eq!(compared.tape(), [b'x'; LINE_SIZE]);
}
