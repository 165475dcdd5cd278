//! Sections "The tape line" and "The ledger": what is written.

mod common;
use checker::sizes::{self, header, line, row, TERMS, U32, U64};
use common::*;
use std::ops::Range;

/// The masked terms.
const TERMS_IN_LINE: Range<usize> = line::TERMS..line::TERMS_END;
const TERMS_IN_ROW: Range<usize> = row::TERMS..row::TAIL;
/// What follows the plain UTI in its field.
const PADDING: Range<usize> = row::UTI + UTI.len()..row::IDENTIFIER;

/// A line from its fields.
fn joined(fields: &[&str]) -> String {
    let line = fields.concat();
    assert_eq!(line.len(), line::SIZE);
    line
}

#[test]
fn a_newt_field_by_field() {
    let mut m = with_package(newt(), "-007.2500", "1");
    set(&mut m, 10, "N");
    set(&mut m, 11, "true");
    set(&mut m, 22, "HK");
    let mut book = Book::new(2);
    assert_eq!(book.accept(&m), 1);
    let line = joined(&[
        "000000000001",         // identifier
        "            ",         // previous one, blank for NEWT
        "NEWT",                 // action
        "TRAD",                 // event
        "2024-03-02T09:00:00Z", // event time
        "2024-02-29T10:15:30Z", // execution time
        "2024-03-01",           // effective
        "2029-03-01",           // expiration
        "N",                    // cleared
        "T",                    // non-standardized
        "F",                    // block
        "T",                    // large
        "T",                    // package
        "-7.25               ", // price
        "1",                    // price notation
        "EUR",                  // price currency
        "IR",                   // asset class
        "0000000012000000",     // notional: 12,345,678.9
        " ",                    // plus
        "USD",                  // notional currency
        "HK",                   // location
        "                    ", // spread
        " ",                    // spread notation
        "   ",                  // spread currency
        "\n",
    ]);
    assert_eq!(book.line(), line);
    // later bytes stay
    assert_eq!(book.tape[line::SIZE..], [0xDD; SPARE]);

    // the row
    let mut row = vec![1, UTI.len() as u8];
    row.extend(UTI.bytes());
    row.resize(row::IDENTIFIER, b' ');
    row.extend(1u64.to_le_bytes());
    row.extend(line[TERMS_IN_LINE].bytes());
    row.resize(row::SIZE, 0);
    assert_eq!(book.row(0), row);
    // the header, and no other row
    assert_eq!(book.u32_at(header::ROWS), 1);
    assert_eq!(book.u64_at(header::NEXT_IDENTIFIER), 2);
    assert_eq!(book.totals(), [1, 0, 0, 0]);
    assert_eq!(book.row(1), [0xEE; row::SIZE]);
    let opened = Book::new(2);
    for stays in [
        header::FIRST_ROW..header::NEXT_IDENTIFIER,
        header::CAPS..header::TOTALS,
    ] {
        assert_eq!(book.ledger[stays.clone()], opened.ledger[stays]);
    }
}

#[test]
fn what_is_missing_or_left_out_is_spaces() {
    let mut book = Book::new(9);
    book.accept(&newt());
    let line = book.line().to_string();
    assert_eq!(
        &line[line::CLEARED..line::CLASS],
        "I FTF                        "
    );
    let rest = line::PLUS..line::NEWLINE;
    assert_eq!(line[rest.clone()], format!("{:1$}", " USD", rest.len()));

    // elements whose "if" is not met are left out
    let other = |n: u8, m: Elements| with(m, 1, &format!("{UTI}{n}"));
    let mut m = with(with_package(newt(), "5", "1"), 15, "False");
    set(&mut m, 10, "Y");
    set(&mut m, 11, "True");
    book.accept(&other(1, m));
    assert_eq!(
        &book.line()[line::CLEARED..line::CLASS],
        "Y FTF                        "
    );

    // notation 3 has no price currency
    let m = with(with_package(newt(), "0.50", "3"), 19, "EUR");
    book.accept(&other(2, m));
    assert_eq!(
        &book.line()[line::PACKAGE..line::CLASS],
        "T0.5                 3   "
    );
}

/// What a line shows of a package: the indicator, price, its notation and its
/// currency; and from 145 up to the newline spread, its notation and its currency.
fn package_shown(book: &Book) -> (&str, &str) {
    assert_eq!(&book.line()[169..], "\n");
    (&book.line()[96..121], &book.line()[145..169])
}

#[test]
fn a_package_shows_its_price_or_its_spread() {
    let mut book = Book::new(1);
    let no_price = format!("T{:24}", "");
    let no_spread = " ".repeat(24);
    book.accept(&with_spread(newt(), "-0012.500", "1"));
    let shown = package_shown(&book);
    assert_eq!(shown, (&*no_price, "-12.5               1GBP"));
    // TERM shows the stored ones
    book.accept(&term());
    let shown = package_shown(&book);
    assert_eq!(shown, (&*no_price, "-12.5               1GBP"));
    book.accept(&full("REVI", None));
    assert_eq!(package_shown(&book), (&*format!("F{:24}", ""), &*no_spread));
    for (spread, notation, shown) in [
        ("0.02570", "3", "0.0257              3   "),
        ("-0.0", "3", "0                   3   "),
        ("00257", "4", "257                 4   "),
        ("-99999", "4", "-99999              4   "),
        ("-0", "4", "0                   4   "),
        ("-12345.1234567890123", "1", "-12345.12345678901231GBP"),
        ("123456789012345678", "1", "123456789012345678  1GBP"),
    ] {
        book.accept(&with_spread(modi(), spread, notation));
        assert_eq!(package_shown(&book), (&*no_price, shown));
        assert_eq!(book.row(0)[155..179], *shown.as_bytes());
    }
    book.accept(&with_package(modi(), "5", "3"));
    let shown = package_shown(&book);
    assert_eq!(shown, ("T5                   3   ", &*no_spread));
}

#[test]
fn what_is_left_out_of_a_package() {
    let mut book = Book::new(1);
    book.accept(&newt());
    let corr = || full("CORR", None);
    let no_package = format!("F{:24}", "");
    let no_price = format!("T{:24}", "");
    let no_spread = " ".repeat(24);
    // 26, 27 and 28 where there is no package, also beside a price
    let m = with(with_spread(corr(), "7", "1"), 15, "False");
    book.accept(&m);
    assert_eq!(package_shown(&book), (&*no_package, &*no_spread));
    book.accept(&with(with_package(m, "5", "1"), 15, "false"));
    assert_eq!(package_shown(&book), (&*no_package, &*no_spread));
    // 27 and 28 without a spread
    let m = with(with_package(corr(), "5", "3"), 27, "1");
    book.accept(&with(m, 28, "GBP"));
    let shown = package_shown(&book);
    assert_eq!(shown, ("T5                   3   ", &*no_spread));
    // 18 and 19 without a price
    let m = with(with_spread(corr(), "7", "4"), 18, "1");
    book.accept(&with(m, 19, "EUR"));
    let shown = package_shown(&book);
    assert_eq!(shown, (&*no_price, "7                   4   "));
    // 28 where 27 is not 1
    for notation in ["3", "4"] {
        book.accept(&with(with_spread(corr(), "7", notation), 28, "GBP"));
        let due = format!("{:20}{notation}   ", "7");
        assert_eq!(package_shown(&book), (&*no_price, &*due));
    }
}

#[test]
fn each_asset_class_has_its_cap() {
    let caps = [1_000, 2_000, 3_000, 4_000, 5_000];
    let mut book = Book::with_caps(5, &caps);
    for (i, class) in ["CR", "IR", "FX", "EQ", "CO"].iter().enumerate() {
        let m = with(with(newt(), 25, class), 1, &format!("{UTI}{i}"));
        book.accept(&with(m, 20, "1000000"));
        let shown = &book.line()[line::CLASS..line::NOTIONAL_CURRENCY];
        assert_eq!(shown, format!("{class}{:016}+", caps[i]));
    }
}

#[test]
fn the_greatest_notional_has_16_digits() {
    let mut book = Book::with_caps(1, &[1_000_000_000_000_000; 5]);
    book.accept(&with(newt(), 20, "1000000000000000"));
    assert_eq!(&book.line()[AMOUNT], "1000000000000000 ");
}

/// What changed between two ledgers, as ranges that may change.
fn only_changed(before: &Book, after: &Book, ranges: &[Range<usize>]) {
    for (at, (b, a)) in before.ledger.iter().zip(&after.ledger).enumerate() {
        let named = ranges.iter().any(|r| r.contains(&at));
        assert!(named || b == a, "byte {at}");
    }
}

#[test]
fn the_life_of_a_swap() {
    let mut book = Book::new(3);
    book.accept(&with(newt(), 1, "ANOTHERSWAP0000000000001"));
    assert_eq!(book.accept(&newt()), 2);
    let in_row =
        |at: usize, size: usize| sizes::ledger_size(1) + at..sizes::ledger_size(1) + at + size;
    let status = in_row(row::STATUS, 1);
    let identifier = in_row(row::IDENTIFIER, U64);
    let terms = in_row(row::TERMS, TERMS);
    let next = header::NEXT_IDENTIFIER..header::NEXT_IDENTIFIER + U64;
    let total = |place: usize| {
        let at = header::TOTALS + U32 * place;
        at..at + U32
    };
    let [live, closed, errored, ported] = [0, 1, 2, 3].map(total);

    // MODI writes status, terms and identifier
    let before = book.clone();
    assert_eq!(book.accept(&with(modi(), 20, "99")), 3);
    only_changed(
        &before,
        &book,
        &[
            next.clone(),
            status.clone(),
            identifier.clone(),
            terms.clone(),
        ],
    );
    assert_eq!(
        &book.line()[..line::EVENT_TIME],
        "000000000003000000000002MODITRAD"
    );
    assert_eq!(&book.line()[AMOUNT], "0000000000000100 ");
    assert_eq!(book.row(1)[TERMS_IN_ROW], book.tape[TERMS_IN_LINE]);

    // TERM writes status and identifier, and shows the stored terms
    let before = book.clone();
    assert_eq!(book.accept(&with(term(), 4, "2025-01-01T00:00:00Z")), 4);
    only_changed(
        &before,
        &book,
        &[
            next.clone(),
            live.clone(),
            closed.clone(),
            status.clone(),
            identifier.clone(),
        ],
    );
    assert_eq!(
        &book.line()[..line::TERMS],
        "000000000004000000000003TERMETRM2025-01-01T00:00:00Z"
    );
    assert_eq!(
        book.tape[line::TERMS..line::SIZE],
        before.tape[line::TERMS..line::SIZE]
    );
    assert_eq!(book.row(1)[row::STATUS], 2);

    // CORR of a closed swap: the status stays
    let before = book.clone();
    assert_eq!(book.accept(&full("CORR", None)), 5);
    only_changed(
        &before,
        &book,
        &[
            next.clone(),
            status.clone(),
            identifier.clone(),
            terms.clone(),
        ],
    );
    assert_eq!(
        &book.line()[..line::EVENT_TIME],
        "000000000005000000000004CORR    "
    );
    assert_eq!(&book.line()[AMOUNT], "0000000012000000 ");
    assert_eq!(book.row(1)[row::STATUS], 2);

    // EROR
    let before = book.clone();
    assert_eq!(book.accept(&short("EROR", None)), 6);
    only_changed(
        &before,
        &book,
        &[
            next.clone(),
            closed.clone(),
            errored.clone(),
            status.clone(),
            identifier.clone(),
        ],
    );
    assert_eq!(
        &book.line()[..line::EVENT_TIME],
        "000000000006000000000005EROR    "
    );
    assert_eq!(
        book.tape[line::TERMS..line::SIZE],
        before.tape[line::TERMS..line::SIZE]
    );

    // REVI
    let before = book.clone();
    assert_eq!(book.accept(&full("REVI", None)), 7);
    only_changed(
        &before,
        &book,
        &[
            next.clone(),
            live.clone(),
            errored.clone(),
            status.clone(),
            identifier.clone(),
            terms.clone(),
        ],
    );
    assert_eq!(
        &book.line()[..line::EVENT_TIME],
        "000000000007000000000006REVI    "
    );

    // PRTO writes the status and two totals, and no byte of the tape buffer
    let before = book.clone();
    assert_eq!(book.accept(&prto()), 0);
    only_changed(&before, &book, &[live, ported, status]);
    assert_eq!(book.tape, before.tape);
    assert_eq!(book.row(1)[row::STATUS], 4);
    assert_eq!(book.u64_at(header::NEXT_IDENTIFIER), 8);
    assert_eq!(book.u32_at(header::ROWS), 2);
}

#[test]
fn the_first_row_of_equal_length_and_bytes_is_the_swaps() {
    let longer = format!("{UTI}A");
    let mut book = Book::new(4);
    book.accept(&with(newt(), 1, &longer));
    book.accept(&newt());
    // padding is not compared
    book.row_mut(1)[PADDING].fill(b'A');
    book.accept(&full("CORR", None));
    assert_eq!(book.row(1)[row::IDENTIFIER], 3);
    // a copy of the row further on is not reached
    let copy = book.row(1).to_vec();
    book.row_mut(2).copy_from_slice(&copy);
    book.set_u32(header::ROWS, 3);
    book.set_totals([3, 0, 0, 0]);
    book.accept(&full("CORR", None));
    let identifiers = [1, 2].map(|place| book.row(place)[row::IDENTIFIER]);
    assert_eq!(identifiers, [4, 3]);
    // a row that is not in use is not the swap's
    book.set_u32(header::ROWS, 1);
    book.set_totals([1, 0, 0, 0]);
    book.refuse(&modi(), 15, 0);
    book.accept(&newt());
    assert_eq!(book.row(1)[row::STATUS], 1);
    assert_eq!(book.row(1)[PADDING], vec![b' '; sizes::UTI - UTI.len()]);
}

#[test]
fn the_shortest_and_the_longest_uti() {
    let mut book = Book::new(2);
    for (place, length) in [21, sizes::UTI].into_iter().enumerate() {
        let uti = "X".repeat(length);
        book.accept(&with(newt(), 1, &uti));
        let row = book.row(place);
        assert_eq!(usize::from(row[row::UTI_LENGTH]), length);
        let (stored, padding) = row[row::UTI..row::IDENTIFIER].split_at(length);
        assert_eq!(stored, uti.as_bytes());
        assert!(padding.iter().all(|&b| b == b' '));
    }
}
