//! Section "Verdict numbers, in checking order".

mod common;
use checker::sizes::{self, header, line, row, LARGEST_CAPACITY, SHORTEST_LEDGER, TOTALS, U64};
use checker::{open, status, submit, totals, Answer, LAST_CODE};
use common::*;

#[test]
fn verdict_1_ledger_short() {
    for length in [0, 1, header::SIZE - 1, header::SIZE, SHORTEST_LEDGER - 1] {
        let mut ledger = vec![7; length];
        assert_eq!(open(&mut ledger, &CAPS), 1);
        // 1 comes before 2
        assert_eq!(open(&mut ledger, &[0; 5]), 1);
        assert_eq!(ledger, vec![7; length]);
    }
    assert_eq!(open(&mut [7; SHORTEST_LEDGER], &CAPS), 0);
}

#[test]
fn verdict_2_cap_wrong() {
    for bad in [0, 999, 1_001, 255_000_000, 1_000_000_000_000_001, u64::MAX] {
        for i in 0..5 {
            let mut caps = CAPS;
            caps[i] = bad;
            let mut ledger = [7; sizes::ledger_size(2)];
            assert_eq!(open(&mut ledger, &caps), 2);
            assert_eq!(ledger, [7; sizes::ledger_size(2)]);
        }
    }
}

#[test]
fn opening_writes_the_header_alone() {
    let caps = [
        1_000,
        11_000,
        250_000_000,
        150_000_000_000,
        1_000_000_000_000_000,
    ];
    for (length, capacity) in [
        (SHORTEST_LEDGER, 1),
        (sizes::ledger_size(2) - 1, 1),
        (sizes::ledger_size(2), 2),
        (sizes::ledger_size(340), 340),
        (264, 1),
        (447, 1),
        (448, 2),
    ] {
        let mut ledger = vec![0xEE; length];
        assert_eq!(open(&mut ledger, &caps), 0);
        let mut header = Vec::new();
        header.extend(0u32.to_le_bytes());
        header.extend((header::SIZE as u32).to_le_bytes());
        header.extend(1u64.to_le_bytes());
        for cap in caps {
            header.extend(cap.to_le_bytes());
        }
        header.extend((row::SIZE as u32).to_le_bytes());
        header.extend((capacity as u32).to_le_bytes());
        header.extend([0; 16]); // four totals of 0
        assert_eq!(ledger[..header::SIZE], header);
        assert!(ledger[header::SIZE..].iter().all(|&b| b == 0xEE));
    }
}

#[test]
fn capacity_is_at_most_100_000() {
    let largest = LARGEST_CAPACITY;
    for (rows, capacity) in [
        (largest - 1, largest - 1),
        (largest, largest),
        (largest + 1, largest),
    ] {
        let book = Book::new(rows);
        assert_eq!(book.u32_at(header::CAPACITY) as usize, capacity);
        assert_eq!(status(&book.ledger, UTI.as_bytes()), Answer::default());
    }
}

/// Submits and asks both questions; all answer 3.
fn breaks_the_ledger(mut book: Book) {
    assert_eq!(book.submit(&newt()), refused(3, 0));
    // 3 comes before 4 and 5
    assert_eq!(submit(&mut book.ledger, &mut [], &[]), refused(3, 0));
    assert_eq!(status(&book.ledger, UTI.as_bytes()), refused(3, 0));
    // and before 9
    assert_eq!(status(&book.ledger, b""), refused(3, 0));
    assert_eq!(totals(&book.ledger), (3, [0; TOTALS]));
}

#[test]
fn verdict_3_ledger_wrong() {
    let book = Book::new(3);
    for length in [0, 4, header::SIZE - 1, header::SIZE, SHORTEST_LEDGER - 1] {
        let mut short = book.clone();
        short.ledger.truncate(length);
        breaks_the_ledger(short);
    }
    for (at, bad) in [
        (header::FIRST_ROW, 0),
        (header::FIRST_ROW, 64), // a header without totals
        (header::FIRST_ROW, header::SIZE as u32 + 1),
        (header::FIRST_ROW, u32::MAX),
        (header::ROW_SIZE, row::SIZE as u32 - 1),
        (header::ROW_SIZE, 160), // a row without a spread
        (header::ROW_SIZE, 0),
        (header::CAPACITY, 2),
        (header::CAPACITY, 4),
        (header::CAPACITY, u32::MAX),
    ] {
        let mut broken = book.clone();
        broken.set_u32(at, bad);
        breaks_the_ledger(broken);
    }
    // more rows in use than the capacity allows; the totals agree
    for bad in [4, u32::MAX] {
        let mut broken = book.clone();
        broken.set_u32(header::ROWS, bad);
        broken.set_totals([bad, 0, 0, 0]);
        breaks_the_ledger(broken);
    }
    // totals that do not add up to the rows in use; see tests/totals.rs
    for (rows, totals) in [(0, [0, 0, 0, 1]), (1, [0; 4]), (3, [2, 0, 0, 0])] {
        let mut broken = book.clone();
        broken.set_u32(header::ROWS, rows);
        broken.set_totals(totals);
        breaks_the_ledger(broken);
    }
    for bad in [0, 1_000_000_000_001, u64::MAX] {
        let mut broken = book.clone();
        broken.set_u64(header::NEXT_IDENTIFIER, bad);
        breaks_the_ledger(broken);
    }
    for i in 0..5 {
        for bad in [0, 999, 250_000_001, u64::MAX] {
            let mut broken = book.clone();
            broken.set_u64(header::CAPS + U64 * i, bad);
            breaks_the_ledger(broken);
        }
    }
    // the capacity is that of the length
    let mut longer = book.clone();
    longer.ledger.extend([0; row::SIZE]);
    breaks_the_ledger(longer);
    // a length that leaves the capacity alone
    let mut longer = book.clone();
    longer.ledger.extend([0; row::SIZE - 1]);
    longer.accept(&newt());
    // a full header of 0xFF
    let mut broken = book;
    broken.ledger[..header::SIZE].fill(0xFF);
    breaks_the_ledger(broken);
}

#[test]
fn verdict_4_tape_short() {
    let mut book = Book::new(3);
    book.tape.truncate(line::SIZE - 1);
    assert_eq!(book.submit(&newt()), refused(4, 0));
    // 4 comes before 5
    assert_eq!(book.submit_bytes(&[]), refused(4, 0));
    book.tape.push(0);
    book.accept(&newt());
    // even for PRTO
    book.tape.truncate(line::SIZE - 1);
    assert_eq!(book.submit(&prto()), refused(4, 0));
}

#[test]
fn verdict_5_layout_wrong() {
    // See tests/layout.rs; 5 comes before 6.
    assert_eq!(Book::new(1).submit_bytes(&[0, 0, 0]), refused(5, 0));
    assert_eq!(Book::new(1).submit_bytes(&[]), refused(5, 0));
}

#[test]
fn verdict_6_action_wrong() {
    let mut book = Book::new(1);
    assert_eq!(book.submit_bytes(&[0, 0]), refused(6, 2));
    book.refuse(&without(newt(), 2), 6, 2);
    for bad in ["term", "NEWt", "NEW", "NEWT ", "VALU", "MARU", "XXXX"] {
        book.refuse(&with(newt(), 2, bad), 6, 2);
    }
    // 6 comes before 7
    book.refuse(&without(with(newt(), 2, "XXXX"), 1), 6, 2);
}

#[test]
fn verdict_7_element_missing() {
    let mut book = Book::new(1);
    let full_codes = [1, 4, 5, 6, 7, 8, 9, 10, 12, 13, 14, 15, 20, 21, 23, 24, 25];
    for (action, event) in [
        ("NEWT", Some("TRAD")),
        ("MODI", Some("TRAD")),
        ("CORR", None),
        ("REVI", None),
    ] {
        for code in full_codes {
            // with a form broken lower down: 7 comes before 9
            let m = with(without(full(action, event), code), 3, "bad");
            book.refuse(&m, 7, code as u8);
            // the lowest one is named
            if code != 25 {
                book.refuse(&without(m, 25), 7, code as u8);
            }
        }
    }
    for (action, event) in [
        ("TERM", Some("ETRM")),
        ("EROR", None),
        ("PRTO", Some("PTNG")),
    ] {
        for code in [1, 4, 5] {
            // 7 comes before 8
            let m = with(without(short(action, event), code), 6, EXECUTED);
            book.refuse(&m, 7, code as u8);
        }
    }
    // The event is not needed by all, nor is a conditional or optional element.
    book.refuse(&without(newt(), 3), 10, 0);
    book.accept(&newt());
}

#[test]
fn verdict_8_element_not_taken() {
    let mut book = Book::new(1);
    book.accept(&newt());
    let all = with(with_package(full("TERM", Some("ETRM")), "1", "1"), 22, "US");
    let all = with_spread(with(all, 11, "True"), "1", "1");
    assert_eq!(all.len(), usize::from(LAST_CODE));
    for (action, event) in [
        ("TERM", Some("ETRM")),
        ("EROR", None),
        ("PRTO", Some("PTNG")),
    ] {
        for code in 6..=LAST_CODE {
            let mut m = short(action, event);
            m.insert(code, all[&code].clone());
            book.refuse(&m, 8, code as u8);
            // 8 comes before 9: a value of any form, and another fault in 4
            m.insert(code, b"?".to_vec());
            book.refuse(&with(m.clone(), 4, "?"), 8, code as u8);
            // the lowest one is named
            m.insert(LAST_CODE, b"?".to_vec());
            book.refuse(&m, 8, code as u8);
        }
    }
}

#[test]
fn verdict_9_form_broken() {
    let mut book = Book::new(1);
    // every element but the action, whose form is 6; 9 comes before 19
    let price = with(with_package(newt(), "1.5", "1"), 22, "US");
    let price = with(price, 11, "false");
    let whole = with_spread(price.clone(), "1.5", "1");
    for (code, bad) in [
        (1, "5493001KJTIIGC8Y1R12"),
        (1, "5493001KJTIIGC8Y1R12swap"),
        (3, "trad"),
        (3, "TRA"),
        (3, "TRADE"),
        (3, "TRA1"),
        (4, "2024-03-02"),
        (5, "2024-03-02T09:00:60Z"),
        (6, "2024-02-30T09:00:00Z"),
        (7, "2023-02-29"),
        (8, "2029-3-1"),
        (9, "2029-03-05T00:00:00Z"),
        (10, "y"),
        (10, "YN"),
        (11, "TRUE"),
        (11, "T"),
        (12, "0"),
        (13, "fALSE"),
        (14, "unal"),
        (15, "True "),
        (16, "A-1"),
        (17, "1.12345678901234"),
        (17, "+1"),
        (18, "2"),
        (18, "01"),
        (19, "usd"),
        (19, "CNH"),
        (19, "EURO"),
        (20, "-1"),
        (20, "1.000000"),
        (20, "12345678901234567890123456"),
        (21, "US"),
        (21, "US1"),
        (21, "CNH"),
        (22, "us"),
        (22, "USA"),
        (22, "XK"),
        (23, "5493001KJTIIGC8Y1R13"),
        (24, "529900T8BM49AURSDO56"),
        (25, "ir"),
        (25, "XX"),
        (26, "1.12345678901234"),
        (26, "1234567890123456789"),
        (26, "+1"),
        (26, ".5"),
        (26, "--5"),
        (26, "12345."),
        (27, "2"),
        (27, "5"),
        (27, "04"),
        (27, "44"),
        (28, "gbp"),
        (28, "CNH"),
        (28, "GB"),
        (28, "EURO"),
    ] {
        book.refuse(&with(whole.clone(), code, bad), 9, code as u8);
        // the lowest one is named
        if code < 28 {
            book.refuse(
                &with(with(whole.clone(), 28, "?"), code, bad),
                9,
                code as u8,
            );
        }
    }
    // a price has no notation 4
    book.refuse(&with(whole.clone(), 18, "4"), 9, 18);
    // 100 letters or digits of either case, not 101
    book.refuse(&with(whole.clone(), 16, &"aZ9".repeat(34)[..101]), 9, 16);
    // the codes of an action that is not full
    for (code, bad) in [(1, "x"), (3, "etrm"), (4, "x"), (5, "x")] {
        book.refuse(&with(term(), code, bad), 9, code as u8);
    }
    // an element whose "if" is not met is read for its form
    for (code, bad) in [(11, "x"), (16, "-"), (17, "x"), (18, "x"), (19, "x")] {
        book.refuse(&with(newt(), code, bad), 9, code as u8);
    }
    for (code, bad) in [(26, "x"), (27, "2"), (28, "x")] {
        book.refuse(&with(newt(), code, bad), 9, code as u8);
    }
    for (code, bad) in [(27, "2"), (28, "x")] {
        book.refuse(&with(price.clone(), code, bad), 9, code as u8);
    }
    for (code, bad) in [(18, "4"), (19, "x")] {
        let spread = with_spread(newt(), "7", "4");
        book.refuse(&with(spread, code, bad), 9, code as u8);
    }
    // 9 comes before 10
    book.refuse(&with(with(newt(), 3, "ETRM"), 25, "xx"), 9, 25);
    book.accept(&with(price, 16, &"aZ9".repeat(34)[..100]));
}

/// The form of 26 is that of 17; 27 is 1, 3 or 4; 28 is a currency.
#[test]
fn the_forms_of_a_spread() {
    let mut book = Book::new(1);
    book.accept(&newt());
    for spread in [
        "0",
        "-0",
        "-5.5",
        "123456789012345678",
        "-123456789012345678",
        "-12345.1234567890123",
        "0.0000000000000",
    ] {
        book.accept(&with_spread(modi(), spread, "1"));
    }
    for notation in ["1", "3", "4"] {
        book.accept(&with_spread(modi(), "5", notation));
    }
    book.accept(&with(with_spread(modi(), "5", "1"), 28, "AZN"));
}

#[test]
fn verdict_10_not_a_pair() {
    let mut book = Book::new(1);
    book.refuse(&full("NEWT", Some("ETRM")), 10, 0);
    book.refuse(&full("NEWT", None), 10, 0);
    book.refuse(&full("CORR", Some("TRAD")), 10, 0);
    book.refuse(&full("REVI", Some("TRAD")), 10, 0);
    book.refuse(&short("EROR", Some("ETRM")), 10, 0);
    book.refuse(&short("TERM", None), 10, 0);
    book.refuse(&short("TERM", Some("TRAD")), 10, 0);
    book.refuse(&short("PRTO", None), 10, 0);
    book.refuse(&full("NEWT", Some("ABCD")), 10, 0);
    // 10 comes before 11
    book.refuse(&with(full("NEWT", None), 10, "N"), 10, 0);
}

#[test]
fn verdict_11_conditional_missing() {
    let mut book = Book::new(9);
    // 11 if Cleared is N
    let not_cleared = with(newt(), 10, "N");
    book.refuse(&not_cleared, 11, 11);
    // 16 and 17 if 15 is true, 18 beside 17, 19 if 18 is 1
    for truth in ["True", "true"] {
        let package = with(with_package(newt(), "1.5", "1"), 15, truth);
        for code in [16, 17, 18, 19] {
            book.refuse(&without(package.clone(), code), 11, code as u8);
        }
        // the lowest one is named
        book.refuse(&with(newt(), 15, truth), 11, 16);
        book.refuse(&without(without(package.clone(), 17), 18), 11, 17);
        book.refuse(&without(without(package.clone(), 18), 19), 11, 18);
        book.refuse(&with(without(package.clone(), 16), 10, "N"), 11, 11);
        // 27 beside 26, 28 if 27 is 1
        let package = with(with_spread(newt(), "1.5", "1"), 15, truth);
        for code in [16, 27, 28] {
            book.refuse(&without(package.clone(), code), 11, code as u8);
        }
        book.refuse(&without(without(package.clone(), 27), 28), 11, 27);
        book.refuse(&without(without(package.clone(), 16), 27), 11, 16);
        // with neither price nor spread 17 is named
        book.refuse(&without(package.clone(), 26), 11, 17);
        let neither = with(with(newt(), 15, truth), 16, "Package1");
        book.refuse(&neither, 11, 17);
        book.refuse(&with(with(neither, 18, "1"), 27, "1"), 11, 17);
    }
    // 11 comes before 12 and 13
    let long = with_package(newt(), "123456789012", "3");
    book.refuse(&without(long, 16), 11, 16);
    book.refuse(&with(not_cleared.clone(), 8, "2000-01-01"), 11, 11);
    // not asked where the condition is not met
    book.accept(&with(not_cleared, 11, "True"));
    let other = |n: u8, m: Elements| with(m, 1, &format!("{UTI}{n}"));
    book.accept(&other(1, with(newt(), 10, "Y")));
    book.accept(&other(2, with(newt(), 15, "False")));
    book.accept(&other(3, with_package(newt(), "1.5", "3")));
    // a spread asks for no price, notation 3 or 4 for no currency
    for (n, notation) in [(4, "1"), (5, "3"), (6, "4")] {
        book.accept(&other(n, with_spread(newt(), "15", notation)));
    }
    // without a price 18 asks for no 19, without a spread 27 for no 28
    book.accept(&other(7, with(with_spread(newt(), "15", "4"), 18, "1")));
    book.accept(&other(8, with(with_package(newt(), "15", "3"), 27, "1")));
}

#[test]
fn verdict_19_price_and_spread() {
    let mut book = Book::new(1);
    for price_notation in ["1", "3"] {
        for spread_notation in ["1", "3", "4"] {
            let m = with_package(newt(), "1.5", price_notation);
            let both = with_spread(m, "15", spread_notation);
            book.refuse(&both, 19, 0);
            // 11 comes before 19: each of the two needs its own
            for code in [16, 18, 27] {
                book.refuse(&without(both.clone(), code), 11, code as u8);
            }
            if price_notation == "1" {
                book.refuse(&without(both.clone(), 19), 11, 19);
            }
            if spread_notation == "1" {
                book.refuse(&without(both.clone(), 28), 11, 28);
            }
            book.refuse(&with(both, 10, "N"), 11, 11);
        }
    }
    // 19 comes before 12, 13 and 15
    let long = with_package(newt(), "123456789012", "3");
    book.refuse(&with_spread(long, "1.5", "4"), 19, 0);
    let both = with_spread(with_package(modi(), "1.5", "3"), "15", "4");
    book.refuse(&with(both.clone(), 8, "2000-01-01"), 19, 0);
    book.refuse(&both, 19, 0);
    // only of a package
    book.accept(&with(with(both, 2, "NEWT"), 15, "False"));
}

#[test]
fn verdict_12_price_too_long() {
    let mut book = Book::new(9);
    for bad in ["123456789012", "0.01234567890", "-12.0123456789"] {
        book.refuse(&with_package(newt(), bad, "3"), 12, 0);
    }
    // 12 comes before 13
    let m = with_package(newt(), "123456789012", "3");
    book.refuse(&with(m.clone(), 8, "2000-01-01"), 12, 0);
    let other = |n: u8, m: Elements| with(m, 1, &format!("{UTI}{n}"));
    book.accept(&other(1, with_package(newt(), "123456789012", "1")));
    book.accept(&other(2, with_package(newt(), "-1.0123456789", "3")));
    // no package, no such test
    book.accept(&other(3, with(m, 15, "False")));
}

#[test]
fn verdict_12_spread_too_long() {
    let mut book = Book::new(1);
    book.accept(&newt());
    for (bad, notation) in [
        ("123456789012", "3"),
        ("-123456789012", "3"),
        ("0.01234567890", "3"),
        ("-12.0123456789", "3"),
        ("000000000000", "3"),
        ("123456", "4"),
        ("-123456", "4"),
        ("000000", "4"),
        ("12345.0", "4"),
        ("0.5", "4"),
        ("-1.0", "4"),
    ] {
        let m = with_spread(modi(), bad, notation);
        book.refuse(&m, 12, 0);
        // 12 comes before 13
        book.refuse(&with(m.clone(), 8, "2000-01-01"), 12, 0);
        // no package, no such test
        book.accept(&with(m, 15, "False"));
        // the notation of a price that is not there does not matter
        let m = with_spread(modi(), bad, notation);
        book.refuse(&with(m, 18, "1"), 12, 0);
        book.accept(&with(with_spread(modi(), bad, "1"), 18, "3"));
    }
    for (good, notation) in [
        ("12345678901", "3"),
        ("-1.0123456789", "3"),
        ("0.0000000000", "3"),
        ("12345", "4"),
        ("-99999", "4"),
        ("00000", "4"),
        ("-0", "4"),
        ("123456789012345678", "1"),
        ("0.0123456789012", "1"),
    ] {
        book.accept(&with_spread(modi(), good, notation));
    }
    // nor does the notation of a spread that is not there
    for notation in ["3", "4"] {
        let m = with_package(modi(), "123456789012", "1");
        book.accept(&with(m, 27, notation));
    }
    // without a package neither the price nor the spread is judged
    let long = with_package(modi(), "123456789012", "3");
    book.accept(&with(with_spread(long, "12345.0", "4"), 15, "false"));
}

#[test]
fn verdict_13_dates_disordered() {
    let mut book = Book::new(9);
    book.refuse(&with(newt(), 8, "2024-02-29"), 13, 0); // expiration before effective
    book.refuse(&with(newt(), 9, "2029-02-28"), 13, 0); // settlement before expiration
    book.refuse(&with(newt(), 5, "2024-02-29T10:15:29Z"), 13, 0); // reporting before execution
                                                                  // equal is not before
    let mut m = newt();
    for code in [7, 8, 9] {
        set(&mut m, code, "2024-03-01");
    }
    set(&mut m, 5, EXECUTED);
    book.accept(&m);
    // 13 comes before 14 and 15
    book.refuse(&with(newt(), 8, "2024-02-29"), 13, 0);
    book.row_mut(0)[row::STATUS] = 9;
    book.refuse(&with(newt(), 8, "2024-02-29"), 13, 0);
    book.row_mut(0)[row::STATUS] = 1;
    // an earlier reporting time is nothing to TERM
    book.accept(&with(term(), 5, "1900-01-01T00:00:00Z"));
}

#[test]
fn verdict_14_row_wrong() {
    let mut book = Book::new(3);
    book.accept(&newt());
    book.accept(&modi());
    assert_eq!(book.u64_at(header::NEXT_IDENTIFIER), 3);
    let messages = [
        newt(),
        modi(),
        full("CORR", None),
        full("REVI", None),
        term(),
        prto(),
    ];
    let asks_14 = |book: &mut Book| {
        for m in &messages {
            // 14 comes before 15 and 16
            book.refuse(m, 14, 0);
        }
        assert_eq!(status(&book.ledger, UTI.as_bytes()), refused(14, 0));
    };
    for bad in [0, 5, 255] {
        let mut broken = book.clone();
        broken.row_mut(0)[row::STATUS] = bad;
        asks_14(&mut broken);
    }
    for bad in [0, 3, 4, u64::MAX] {
        let mut broken = book.clone();
        broken.set_u64(header::SIZE + row::IDENTIFIER, bad);
        asks_14(&mut broken);
    }
    // the total of the status is 0; see tests/totals.rs
    for bad in [[0, 1, 0, 0], [0, 0, 1, 0], [0, 0, 0, 1]] {
        let mut broken = book.clone();
        broken.set_totals(bad);
        asks_14(&mut broken);
    }
    for good in [1, 2] {
        let mut other = book.clone();
        other.set_u64(header::SIZE + row::IDENTIFIER, good);
        let answer = status(&other.ledger, UTI.as_bytes());
        assert_eq!(
            (answer.verdict, answer.status, answer.identifier),
            (0, 1, good)
        );
    }
    // with next identifier 1 no identifier is right
    book.set_u64(header::NEXT_IDENTIFIER, 1);
    asks_14(&mut book);
    // another swap's row does not matter
    book.accept(&with(newt(), 1, "ANOTHERSWAP0000000000001"));
}

#[test]
fn verdict_15_not_admitted() {
    let actions: [(&str, Elements); 7] = [
        ("NEWT", newt()),
        ("MODI", modi()),
        ("CORR", full("CORR", None)),
        ("TERM", term()),
        ("EROR", short("EROR", None)),
        ("REVI", full("REVI", None)),
        ("PRTO", prto()),
    ];
    // the status after each action, or 15, from unknown, live, closed, errored, ported
    let steps: [[u8; 5]; 7] = [
        [1, 15, 15, 15, 15],
        [15, 1, 15, 15, 15],
        [15, 1, 2, 15, 15],
        [15, 2, 15, 15, 15],
        [15, 3, 3, 15, 15],
        [15, 15, 1, 1, 15],
        [15, 4, 15, 15, 15],
    ];
    for ((action, m), row) in actions.iter().zip(steps) {
        for (before, after) in row.into_iter().enumerate() {
            let mut book = Book::new(3);
            if before > 0 {
                book.accept(&newt());
                book.set_only_status(before as u8);
            }
            let answer = book.submit(m);
            if after == 15 {
                assert_eq!(answer, refused(15, 0), "{action} from {before}");
            } else {
                assert_eq!(answer.verdict, 0, "{action} from {before}");
                assert_eq!(book.row(0)[row::STATUS], after, "{action} from {before}");
                assert_eq!(status(&book.ledger, UTI.as_bytes()).status, after);
            }
        }
    }
}

#[test]
fn verdict_16_other_time() {
    let mut book = Book::new(1);
    book.accept(&newt());
    let other = "2024-02-29T10:15:31Z";
    book.refuse(&with(modi(), 6, other), 16, 0);
    // 15 comes before 16
    book.refuse(&with(full("REVI", None), 6, other), 15, 0);
    // CORR may mend it, then MODI and REVI repeat the new one
    book.accept(&with(full("CORR", None), 6, other));
    book.refuse(&modi(), 16, 0);
    book.accept(&with(modi(), 6, other));
    book.accept(&term());
    book.refuse(&full("REVI", None), 16, 0);
    book.accept(&with(full("REVI", None), 6, other));
}

#[test]
fn verdict_17_ledger_full() {
    let mut book = Book::new(2);
    let swap = |n: u8| with(newt(), 1, &format!("{UTI}{n}"));
    book.accept(&swap(1));
    book.accept(&swap(2));
    book.refuse(&swap(3), 17, 0);
    // 15 comes before 17, and 17 before 18
    book.refuse(&swap(2), 15, 0);
    book.set_u64(header::NEXT_IDENTIFIER, 1_000_000_000_000);
    book.refuse(&swap(3), 17, 0);
    // only NEWT asks for a row
    book.set_u64(header::NEXT_IDENTIFIER, 3);
    book.accept(&with(modi(), 1, &format!("{UTI}1")));
    // rows in use can be equal to capacity
    assert_eq!(status(&book.ledger, format!("{UTI}2").as_bytes()).status, 1);
}

#[test]
fn verdict_18_identifiers_spent() {
    let mut book = Book::new(2);
    book.accept(&newt());
    book.set_u64(header::NEXT_IDENTIFIER, 999_999_999_999);
    assert_eq!(book.accept(&full("CORR", None)), 999_999_999_999);
    assert_eq!(&book.line()[..line::ACTION], "999999999999000000000001");
    assert_eq!(book.u64_at(header::NEXT_IDENTIFIER), 1_000_000_000_000);
    for m in [
        modi(),
        full("CORR", None),
        term(),
        short("EROR", None),
        with(newt(), 1, "ANOTHERSWAP0000000000001"),
    ] {
        book.refuse(&m, 18, 0);
    }
    // 16 comes before 18
    book.refuse(&with(modi(), 6, "2024-02-29T10:15:31Z"), 16, 0);
    // PRTO writes no line, nor does a MODI that shows nothing new
    assert_eq!(book.accept(&modi_as_newt()), 0);
    assert_eq!(book.accept(&prto()), 0);
}

#[test]
fn status_question() {
    let mut book = Book::new(2);
    let ask = |book: &Book| status(&book.ledger, UTI.as_bytes());
    for bad in [
        "",
        "ABC",
        &"A".repeat(20),
        &"A".repeat(sizes::UTI + 1),
        &"a".repeat(30),
    ] {
        assert_eq!(status(&book.ledger, bad.as_bytes()), refused(9, 1));
    }
    assert_eq!(ask(&book), Answer::default());
    book.accept(&newt());
    let of = |status, identifier| Answer {
        status,
        identifier,
        ..Answer::default()
    };
    assert_eq!(ask(&book), of(1, 1));
    book.accept(&modi());
    assert_eq!(ask(&book), of(1, 2));
    book.accept(&term());
    assert_eq!(ask(&book), of(2, 3));
    book.accept(&short("EROR", None));
    assert_eq!(ask(&book), of(3, 4));
    book.accept(&full("REVI", None));
    assert_eq!(ask(&book), of(1, 5));
    book.accept(&prto());
    assert_eq!(ask(&book), of(4, 5));
}

/// Section "Misreadings we have met".
mod misreadings {
    use super::*;

    #[test]
    fn the_exact_amount_is_compared_with_the_cap() {
        let mut book = Book::new(1);
        book.accept(&with(newt(), 20, "250400000"));
        assert_eq!(&book.line()[AMOUNT], "0000000250000000+");
        book.accept(&with(modi(), 20, "250000000"));
        assert_eq!(&book.line()[AMOUNT], "0000000250000000 ");
    }

    #[test]
    fn the_notional_has_25_digits() {
        let mut book = Book::new(1);
        // 2 to the 64th and 1,000
        book.accept(&with(newt(), 20, "18446744073709552616"));
        assert_eq!(&book.line()[AMOUNT], "0000000250000000+");
        let corr = full("CORR", None);
        book.accept(&with(corr, 20, "9999999999999999999999999"));
        assert_eq!(&book.line()[AMOUNT], "0000000250000000+");
    }

    #[test]
    fn newt_does_not_bring_back_an_errored_swap() {
        let mut book = Book::new(2);
        book.accept(&newt());
        book.accept(&short("EROR", None));
        book.refuse(&newt(), 15, 0);
        book.accept(&full("REVI", None));
    }

    #[test]
    fn the_form_is_checked_before_the_status() {
        let mut book = Book::new(1);
        book.refuse(&with(modi(), 20, "x"), 9, 20);
        book.refuse(&modi(), 15, 0);
    }

    #[test]
    fn no_row_is_written_where_identifiers_are_spent() {
        let mut book = Book::new(1);
        book.set_u64(header::NEXT_IDENTIFIER, 1_000_000_000_000);
        // Book::submit sees that no byte changes.
        book.refuse(&newt(), 18, 0);
        assert_eq!(book.u32_at(header::ROWS), 0);
    }
}
