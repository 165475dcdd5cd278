//! Clauses 7.6 and 8.6: a MODI whose masked terms equal the stored ones writes
//! no line and changes no byte.

mod common;
use checker::sizes::{header, line, row, SHORTEST_LEDGER, TERMS, TIME, U64};
use checker::{status, Answer};
use common::*;
use std::ops::Range;

const TERMS_IN_ROW: Range<usize> = row::TERMS..row::TAIL;

/// The message as a MODI.
fn as_modi(m: &Elements) -> Elements {
    with(with(m.clone(), 2, "MODI"), 3, "TRAD")
}

/// Submits a MODI for which no line is due.
fn shows_nothing(book: &mut Book, m: &Elements) {
    let before = book.clone();
    assert_eq!(book.submit(m), Answer::default(), "{m:?}");
    assert!(*book == before, "bytes changed: {m:?}");
}

/// Submits a message about the first row's swap for which a line is due.
fn shows(book: &mut Book, m: &Elements) {
    let next = book.u64_at(header::NEXT_IDENTIFIER);
    let previous = book.u64_at(header::SIZE + row::IDENTIFIER);
    assert_eq!(book.accept(m), next, "{m:?}");
    let identifiers = format!("{next:012}{previous:012}");
    assert_eq!(book.line()[..line::ACTION], identifiers);
    assert_eq!(book.u64_at(header::NEXT_IDENTIFIER), next + 1);
    assert_eq!(book.u64_at(header::SIZE + row::IDENTIFIER), next);
    let shown = &book.tape[line::TERMS..line::TERMS_END];
    assert_eq!(&book.row(0)[TERMS_IN_ROW], shown);
}

/// A ledger with this NEWT. There is no line in the tape buffer: the host has
/// taken it out.
fn with_swap(newt: &Elements) -> Book {
    let mut book = Book::new(1);
    assert_eq!(book.accept(newt), 1);
    book.tape.fill(0xDD);
    book
}

#[test]
fn a_modi_that_repeats_the_stored_terms() {
    let mut book = with_swap(&newt());
    for _ in 0..3 {
        shows_nothing(&mut book, &modi_as_newt());
    }
    assert_eq!(book.u64_at(header::NEXT_IDENTIFIER), 2);
    let asked = status(&book.ledger, UTI.as_bytes());
    assert_eq!((asked.status, asked.identifier), (1, 1));
    // the next line has the next identifier and names the line before
    shows(&mut book, &modi());
    let identifiers = "000000000002000000000001MODITRAD";
    assert_eq!(&book.line()[..line::EVENT_TIME], identifiers);
    // the stored terms count, not those of the NEWT
    shows_nothing(&mut book, &modi());
    shows(&mut book, &modi_as_newt());
    shows_nothing(&mut book, &modi_as_newt());
}

#[test]
fn event_and_times_do_not_matter() {
    let mut book = with_swap(&newt());
    for event in [
        "TRAD", "NOVA", "COMP", "EXER", "ALOC", "CREV", "CORP", "UPDT",
    ] {
        shows_nothing(&mut book, &with(modi_as_newt(), 3, event));
    }
    for time in ["1900-01-01T00:00:00Z", "9999-12-31T23:59:59Z"] {
        shows_nothing(&mut book, &with(modi_as_newt(), 4, time));
    }
    for time in [EXECUTED, "9999-12-31T23:59:59Z"] {
        shows_nothing(&mut book, &with(modi_as_newt(), 5, time));
    }
}

#[test]
fn what_is_not_shown() {
    let mut book = with_swap(&newt());
    let mut all = modi_as_newt();
    for (code, v) in [
        (9, "2029-03-01"),
        (9, "9999-12-31"),
        (14, "POST"),
        (14, "PREA"),
        (23, LEI_2),
        (24, LEI_1),
        // another spelling
        (12, "false"),
        (13, "True"),
        (15, "False"),
        // amounts from 11,500,000 up to 12,500,000 show 12,000,000
        (20, "11500000"),
        (20, "12000000"),
        (20, "12499999.99999"),
        (20, "00000000000012345678.9"),
        // conditions do not hold: Cleared is I, and there is no package
        (11, "True"),
        (16, "Package1"),
        (17, "5"),
        (18, "1"),
        (19, "EUR"),
        (26, "5"),
        (27, "4"),
        (28, "GBP"),
    ] {
        shows_nothing(&mut book, &with(modi_as_newt(), code, v));
        set(&mut all, code, v);
    }
    shows_nothing(&mut book, &all);
    // the amounts beside
    shows(&mut book, &with(modi_as_newt(), 20, "11499999.99999"));
    shows(&mut book, &with(modi_as_newt(), 20, "12500000"));
    assert_eq!(&book.line()[AMOUNT], "0000000013000000 ");
}

#[test]
fn what_is_not_shown_of_a_package() {
    let price = with_package(newt(), "-007.2500", "1");
    let mut book = with_swap(&price);
    for (code, v) in [
        (15, "true"),
        (16, "Package2"),
        (17, "-7.25"),
        (17, "-0000000000007.25000"),
        (27, "4"),
        (28, "GBP"),
    ] {
        shows_nothing(&mut book, &with(as_modi(&price), code, v));
    }
    let spread = with_spread(newt(), "0", "4");
    let mut book = with_swap(&spread);
    for (code, v) in [
        (16, "Package2"),
        (18, "1"),
        (19, "EUR"),
        (26, "-0"),
        (26, "00000"),
        (28, "GBP"),
    ] {
        shows_nothing(&mut book, &with(as_modi(&spread), code, v));
    }
    // a currency beside notation 3
    let decimal = with_package(newt(), "0.50", "3");
    let mut book = with_swap(&decimal);
    shows_nothing(&mut book, &with(as_modi(&decimal), 19, "EUR"));
}

#[test]
fn amounts_above_the_cap() {
    let above = with(newt(), 20, "250000000.00001");
    let mut book = with_swap(&above);
    for amount in ["250400000", "300000000", "9999999999999999999999999"] {
        shows_nothing(&mut book, &with(as_modi(&above), 20, amount));
    }
    // the cap itself has no plus sign
    shows(&mut book, &with(as_modi(&above), 20, "250000000"));
    assert_eq!(&book.line()[AMOUNT], "0000000250000000 ");
    shows(&mut book, &as_modi(&above));
    assert_eq!(&book.line()[AMOUNT], "0000000250000000+");
}

/// Whichever of the shown elements is another, a line is due, and again on the
/// way back.
#[test]
fn what_is_shown() {
    let price = with(with_package(newt(), "5", "1"), 22, "HK");
    let price = with(with(price, 10, "N"), 11, "true");
    let spread = with(with_spread(newt(), "7", "1"), 28, "USD");
    let mut pairs = vec![
        (price.clone(), without(price.clone(), 22)),
        (price.clone(), spread.clone()),
    ];
    for (code, v) in [
        (7, "2024-03-02"),
        (8, "2029-03-02"),
        (10, "Y"),
        (11, "False"),
        (12, "True"),
        (13, "false"),
        (15, "False"),
        (17, "5.0000000000001"),
        (17, "-5"),
        (18, "3"),
        (19, "USD"),
        (20, "13000000"),
        (21, "EUR"),
        (22, "US"),
        (25, "CR"),
    ] {
        pairs.push((price.clone(), with(price.clone(), code, v)));
    }
    // USN differs from USD in the last of the masked terms alone
    for (code, v) in [(26, "-7"), (26, "0"), (27, "3"), (27, "4"), (28, "USN")] {
        pairs.push((spread.clone(), with(spread.clone(), code, v)));
    }
    for (one, other) in pairs {
        let (mut book, one, other) = (with_swap(&one), as_modi(&one), as_modi(&other));
        shows_nothing(&mut book, &one);
        shows(&mut book, &other);
        shows_nothing(&mut book, &other);
        shows(&mut book, &one);
        shows_nothing(&mut book, &one);
    }
}

#[test]
fn other_actions_show_equal_terms() {
    let mut book = with_swap(&newt());
    shows(&mut book, &full("CORR", None));
    shows(&mut book, &full("CORR", None));
    shows(&mut book, &term());
    shows(&mut book, &full("CORR", None));
    shows(&mut book, &full("REVI", None));
    shows(&mut book, &short("EROR", None));
    shows(&mut book, &full("REVI", None));
    shows_nothing(&mut book, &modi_as_newt());
    assert_eq!(book.u64_at(header::NEXT_IDENTIFIER), 9);
    assert_eq!(book.accept(&prto()), 0);
}

/// Neither another swap's terms nor the line in the tape buffer counts.
#[test]
fn the_terms_are_those_of_the_swap() {
    let other = "ANOTHERSWAP0000000000001";
    let mut book = Book::new(2);
    book.accept(&newt());
    // a NEWT that shows what another swap shows
    assert_eq!(book.accept(&with(newt(), 1, other)), 2);
    shows_nothing(&mut book, &modi_as_newt());
    assert_eq!(book.accept(&with(modi(), 1, other)), 3);
    // the line in the buffer has other terms, then the same
    shows_nothing(&mut book, &modi_as_newt());
    shows(&mut book, &modi());
    shows_nothing(&mut book, &with(modi(), 1, other));
    // equal in the buffer, but another in the row
    assert_eq!(book.accept(&with(modi_as_newt(), 1, other)), 5);
    shows(&mut book, &modi_as_newt());
}

#[test]
fn verdict_18_does_not_touch_it() {
    let mut book = with_swap(&newt());
    book.set_u64(header::NEXT_IDENTIFIER, 1_000_000_000_000);
    shows_nothing(&mut book, &modi_as_newt());
    shows_nothing(&mut book, &with(modi_as_newt(), 3, "NOVA"));
    book.refuse(&modi(), 18, 0);
    book.refuse(&full("CORR", None), 18, 0);
    shows_nothing(&mut book, &modi_as_newt());
    // one identifier is left
    book.set_u64(header::NEXT_IDENTIFIER, 999_999_999_999);
    shows_nothing(&mut book, &modi_as_newt());
    shows(&mut book, &modi());
    shows_nothing(&mut book, &modi());
    book.refuse(&modi_as_newt(), 18, 0);
}

#[test]
fn the_other_verdicts_come_first() {
    let same = modi_as_newt();
    Book::new(1).refuse(&same, 15, 0);
    let mut book = with_swap(&newt());
    let mut broken = book.clone();
    broken.tape.truncate(line::SIZE - 1);
    broken.refuse(&same, 4, 0);
    // in what is not shown too
    book.refuse(&without(same.clone(), 5), 7, 5);
    book.refuse(&with(same.clone(), 24, "5493001KJTIIGC8Y1R13"), 9, 24);
    book.refuse(&with(same.clone(), 28, "CNH"), 9, 28);
    book.refuse(&with(same.clone(), 3, "ETRM"), 10, 0);
    book.refuse(&without(same.clone(), 3), 10, 0);
    book.refuse(&with(same.clone(), 9, "2029-02-28"), 13, 0);
    book.refuse(&with(same.clone(), 5, "2024-02-29T10:15:29Z"), 13, 0);
    book.refuse(&with(same.clone(), 6, "2024-02-29T10:15:31Z"), 16, 0);
    for status in [2, 3, 4] {
        let mut other = book.clone();
        other.set_only_status(status);
        other.refuse(&same, 15, 0);
    }
    for status in [0, 5] {
        let mut broken = book.clone();
        broken.row_mut(0)[row::STATUS] = status;
        broken.refuse(&same, 14, 0);
    }
    let mut broken = book.clone();
    broken.set_totals([0, 1, 0, 0]);
    broken.refuse(&same, 14, 0);
    for identifier in [0, 2, u64::MAX] {
        let mut broken = book.clone();
        broken.set_u64(header::SIZE + row::IDENTIFIER, identifier);
        broken.refuse(&same, 14, 0);
    }
    // 17 is about NEWT: the one row is in use
    assert_eq!(book.ledger.len(), SHORTEST_LEDGER);
    shows_nothing(&mut book, &same);
}

/// Stored terms are compared as they are, whatever they hold.
#[test]
fn every_stored_byte_is_compared() {
    let spread = with(with_spread(newt(), "7", "1"), 22, "HK");
    let sound = with_swap(&spread);
    let same = as_modi(&spread);
    for at in 0..TERMS {
        let right = sound.row(0)[row::TERMS + at];
        for bad in [0, b'\n', b' ', right ^ 0x20, 0xFF] {
            let mut book = sound.clone();
            book.row_mut(0)[row::TERMS + at] = bad;
            if bad == right {
                shows_nothing(&mut book, &same);
            } else if at < TIME {
                book.refuse(&same, 16, 0);
            } else {
                shows(&mut book, &same);
                assert_eq!(book.row(0)[TERMS_IN_ROW], sound.row(0)[TERMS_IN_ROW]);
                shows_nothing(&mut book, &same);
            }
        }
    }
    // what stands before and behind the terms is not
    let padding = row::UTI + UTI.len()..row::IDENTIFIER;
    for at in padding.chain(row::TAIL..row::SIZE) {
        let mut book = sound.clone();
        book.row_mut(0)[at] = 0xFF;
        shows_nothing(&mut book, &same);
    }
}

/// The caps are those of the header now.
#[test]
fn another_cap() {
    let mut book = with_swap(&newt());
    let cap_of = |class: usize| header::CAPS + U64 * class;
    // 12,345,678.9 in IR; the cap of FX does not matter
    book.set_u64(cap_of(2), 10_000_000);
    shows_nothing(&mut book, &modi_as_newt());
    book.set_u64(cap_of(1), 10_000_000);
    shows(&mut book, &modi_as_newt());
    assert_eq!(&book.line()[AMOUNT], "0000000010000000+");
    shows_nothing(&mut book, &modi_as_newt());
    book.set_u64(cap_of(1), 250_000_000);
    shows(&mut book, &modi_as_newt());
    assert_eq!(&book.line()[AMOUNT], "0000000012000000 ");
}

/// Examples 1, 9 and 12 of the CFTC's Appendix F by clause 7.6; the second and
/// the third are disseminated otherwise there.
#[test]
fn examples_of_appendix_f() {
    let of = |action, event, amount| with(full(action, event), 20, amount);
    let mut book = with_swap(&of("NEWT", Some("TRAD"), "10000"));
    shows(&mut book, &of("MODI", Some("TRAD"), "9000"));
    let update = with(of("MODI", Some("TRAD"), "9000"), 4, "2024-04-03T15:01:02Z");
    shows_nothing(&mut book, &update);
    shows(&mut book, &of("CORR", None, "9000"));
    let identifiers = "000000000003000000000002CORR    ";
    assert_eq!(&book.line()[..line::EVENT_TIME], identifiers);
    // a partial exercise
    let mut book = with_swap(&of("NEWT", Some("TRAD"), "16000"));
    shows(&mut book, &of("MODI", Some("EXER"), "11000"));
    // a credit event
    let mut book = with_swap(&of("NEWT", Some("TRAD"), "20000"));
    shows_nothing(&mut book, &of("MODI", Some("CREV"), "20000"));
}
