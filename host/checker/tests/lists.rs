//! Currencies and locations: the lists in data/, what is in them and what is
//! not, and verdict 9.

mod common;
use checker::sizes::{line, row, CURRENCY, LOCATION};
use checker::{is_currency, is_location};
use common::*;
use std::fs;
use std::path::Path;

/// A list and the question that it answers.
struct List {
    file: &'static str,
    count: usize,
    width: usize,
    is_in: fn(&[u8]) -> bool,
}

const CURRENCIES: List = List {
    file: "iso-4217.txt",
    count: 180,
    width: 3,
    is_in: is_currency,
};

const LOCATIONS: List = List {
    file: "iso-3166-1.txt",
    count: 249,
    width: 2,
    is_in: is_location,
};

impl List {
    fn text(&self) -> String {
        let package = Path::new(env!("CARGO_MANIFEST_DIR"));
        let path = package.join("../../data").join(self.file);
        fs::read_to_string(path).expect("the list can be read")
    }

    fn codes(&self) -> Vec<String> {
        self.text().lines().map(String::from).collect()
    }

    /// Asks for one value; answers whether it is in the list.
    fn asked(&self, codes: &[String], v: &[u8]) -> bool {
        let due = codes.iter().any(|code| code.as_bytes() == v);
        assert_eq!((self.is_in)(v), due, "{}: {v:?}", self.file);
        due
    }

    fn has(&self, values: &[&str]) {
        for v in values {
            assert!((self.is_in)(v.as_bytes()), "{}: {v}", self.file);
        }
    }

    fn lacks(&self, values: &[&[u8]]) {
        for v in values {
            assert!(!(self.is_in)(v), "{}: {v:?}", self.file);
        }
    }
}

/// All texts of so many capitals.
fn capitals(width: usize) -> Vec<Vec<u8>> {
    let mut texts = vec![vec![]];
    for _ in 0..width {
        let longer = |text: Vec<u8>| (b'A'..=b'Z').map(move |b| [&text[..], &[b]].concat());
        texts = texts.into_iter().flat_map(longer).collect();
    }
    texts
}

#[test]
fn the_files() {
    assert_eq!((CURRENCIES.width, LOCATIONS.width), (CURRENCY, LOCATION));
    for list in [CURRENCIES, LOCATIONS] {
        let codes = list.codes();
        assert_eq!(codes.len(), list.count);
        for code in &codes {
            assert_eq!(code.len(), list.width, "{code}");
            assert!(code.chars().all(|c| c.is_ascii_uppercase()), "{code}");
        }
        for pair in codes.windows(2) {
            assert!(pair[0] < pair[1], "{pair:?}");
        }
        // a newline after each code and nothing else
        assert_eq!(list.text(), codes.join("\n") + "\n");
    }
}

#[test]
fn all_texts_of_capitals() {
    for (list, count) in [(CURRENCIES, 17_576), (LOCATIONS, 676)] {
        let (codes, texts) = (list.codes(), capitals(list.width));
        assert_eq!(texts.len(), count);
        let found = texts.iter().filter(|v| list.asked(&codes, v)).count();
        assert_eq!(found, list.count);
    }
}

#[test]
fn any_byte_in_any_place_of_a_code() {
    for list in [CURRENCIES, LOCATIONS] {
        let codes = list.codes();
        for code in &codes {
            for at in 0..list.width {
                for b in 0..=255 {
                    let mut v = code.clone().into_bytes();
                    v[at] = b;
                    assert!(!list.asked(&codes, &v) || b.is_ascii_uppercase());
                }
            }
        }
    }
}

#[test]
fn any_part_of_a_list() {
    for list in [CURRENCIES, LOCATIONS] {
        let text = list.text().into_bytes();
        for start in 0..=text.len() {
            for end in start..=text.len().min(start + 10) {
                let is_code = start % (list.width + 1) == 0 && end - start == list.width;
                assert_eq!((list.is_in)(&text[start..end]), is_code, "{start} to {end}");
            }
        }
        assert!(!(list.is_in)(&text));
    }
}

#[test]
fn currencies() {
    let codes = CURRENCIES.codes();
    assert_eq!(
        (&*codes[0], &*codes[89], &*codes[179]),
        ("AED", "MGA", "ZWL")
    );
    CURRENCIES.has(&["AED", "MGA", "ZWL", "USD", "EUR", "GBP", "JPY", "CNY"]);
    // funds, metals, test, no currency
    CURRENCIES.has(&["CHE", "USN", "XAU", "XDR", "XTS", "XXX"]);
    // in force on the day
    CURRENCIES.has(&["ANG", "BGN", "CUC", "SLE", "VED", "ZWG"]);
    // never a code, no longer one, not yet one
    CURRENCIES.lacks(&[b"CNH", b"ZZZ", b"AAA", b"RMB", b"UKP"]);
    CURRENCIES.lacks(&[b"BYR", b"DEM", b"HRK", b"SLL", b"USS"]);
    CURRENCIES.lacks(&[b"XAD", b"XCG"]);
    // another case, numbers, spaces
    CURRENCIES.lacks(&[b"usd", b"Usd", b"USd", b"uSD", b"aed", b"zwl"]);
    CURRENCIES.lacks(&[b"840", b"US1", b"U5D", b"1SD", b"   ", b" USD", b"USD "]);
    CURRENCIES.lacks(&[b"US ", b" SD", b"U D"]);
    // another width
    CURRENCIES.lacks(&[
        b"", b"U", b"A", b"US", b"AE", b"ED", b"USDD", b"AEDA", b"AAED",
    ]);
    CURRENCIES.lacks(&[b"ZWLA", b"AEDAFN", b"AED\nAFN"]);
    CURRENCIES.lacks(&[b"\n", b"\nAE", b"ED\n", b"AED\n", b"D\nA", b"\nAED", b"L\n"]);
    CURRENCIES.lacks(&[b"\0", b"\0\0\0", b"US\0", b"\0SD", b"USD\0", b"\xFF"]);
    CURRENCIES.lacks(&[b"\xFF\xFF\xFF", b"US\xFF", b"\xFFSD", b"USD\xFF"]);
}

#[test]
fn locations() {
    let codes = LOCATIONS.codes();
    assert_eq!((&*codes[0], &*codes[124], &*codes[248]), ("AD", "KZ", "ZW"));
    LOCATIONS.has(&[
        "AD", "KZ", "ZW", "GB", "US", "HK", "CN", "BQ", "SS", "AX", "TW",
    ]);
    // reserved or free for use, and no longer assigned
    LOCATIONS.lacks(&[b"UK", b"EU", b"AC", b"SU", b"XK", b"AA", b"ZZ", b"QQ"]);
    LOCATIONS.lacks(&[b"AN", b"CS", b"YU", b"TP"]);
    // another case, numbers, spaces
    LOCATIONS.lacks(&[b"us", b"Us", b"uS", b"ad", b"zw", b"84", b"U1", b"1S"]);
    LOCATIONS.lacks(&[b"  ", b"U ", b" S", b" US", b"US "]);
    // another width
    LOCATIONS.lacks(&[
        b"", b"U", b"A", b"USA", b"ADA", b"AAD", b"ZWA", b"ADAE", b"AD\nAE",
    ]);
    LOCATIONS.lacks(&[b"\n", b"\nA", b"D\n", b"AD\n", b"\nAD", b"D\nA", b"W\n"]);
    LOCATIONS.lacks(&[b"\0", b"\0\0", b"U\0", b"\0S", b"US\0"]);
    LOCATIONS.lacks(&[b"\xFF", b"\xFF\xFF", b"U\xFF", b"\xFFS", b"US\xFF"]);
}

#[test]
fn every_currency_is_accepted_and_shown() {
    let mut book = Book::new(1);
    book.accept(&newt());
    for code in CURRENCIES.codes() {
        book.accept(&with(modi(), 21, &code));
        assert_eq!(&book.line()[line::NOTIONAL_CURRENCY..line::LOCATION], code);
        book.accept(&with(with_package(modi(), "5", "1"), 19, &code));
        assert_eq!(&book.line()[line::PRICE_CURRENCY..line::CLASS], code);
        book.accept(&with(with_spread(modi(), "5", "1"), 28, &code));
        assert_eq!(&book.line()[line::SPREAD_CURRENCY..line::NEWLINE], code);
    }
}

#[test]
fn every_location_is_accepted_and_shown() {
    let mut book = Book::new(1);
    book.accept(&newt());
    for code in LOCATIONS.codes() {
        book.accept(&with(modi(), 22, &code));
        assert_eq!(&book.line()[line::LOCATION..line::SPREAD], code);
    }
    // it is not tied to the currency
    book.accept(&with(with(modi(), 21, "CNY"), 22, "HK"));
    book.accept(&with(modi(), 21, "CNY"));
}

/// Messages that have a currency in an element: those where it counts, then
/// those where it is left out.
fn with_currency(code: u16, v: &str) -> Vec<Elements> {
    let price = with_package(newt(), "5", "1");
    let spread = with_spread(newt(), "5", "1");
    let messages = match code {
        19 => vec![
            price.clone(),
            with_package(newt(), "5", "3"),
            newt(),
            with(price, 15, "False"),
            spread.clone(),
            with(spread, 18, "1"),
        ],
        28 => vec![
            spread.clone(),
            with_spread(newt(), "5", "3"),
            with_spread(newt(), "5", "4"),
            newt(),
            with(spread, 15, "False"),
            price.clone(),
            with(price, 27, "1"),
        ],
        _ => vec![newt(), price, spread],
    };
    messages.into_iter().map(|m| with(m, code, v)).collect()
}

#[test]
fn verdict_9_names_the_currency() {
    let mut book = Book::new(1);
    for code in [19, 21, 28] {
        for bad in ["CNH", "ZZZ", "HRK", "XAD", "usd", "US", "EURO"] {
            for m in with_currency(code, bad) {
                book.refuse(&m, 9, code as u8);
            }
        }
        for m in with_currency(code, "CNY") {
            Book::new(1).accept(&m);
        }
    }
    // the other full actions
    for m in [modi(), full("CORR", None), full("REVI", None)] {
        book.refuse(&with(m, 21, "CNH"), 9, 21);
    }
    // the lowest one is named
    let all = with_spread(with_package(newt(), "5", "1"), "5", "1");
    let all = with(with(with(all, 19, "CNH"), 21, "CNH"), 28, "CNH");
    book.refuse(&all, 9, 19);
    book.refuse(&with(all.clone(), 19, "CNY"), 9, 21);
    book.refuse(&with(with(all, 19, "CNY"), 21, "CNY"), 9, 28);
}

#[test]
fn verdict_9_names_the_location() {
    let mut book = Book::new(1);
    for bad in ["XK", "UK", "EU", "ZZ", "us", "U", "USA"] {
        book.refuse(&with(newt(), 22, bad), 9, 22);
    }
    // the lowest one is named
    let both = with(with(newt(), 21, "CNH"), 22, "XK");
    book.refuse(&both, 9, 21);
    book.refuse(&with(both, 21, "CNY"), 9, 22);
}

#[test]
fn the_order_of_checking() {
    let mut book = Book::new(1);
    for (code, bad) in [(19, "CNH"), (21, "CNH"), (22, "XK"), (28, "CNH")] {
        let m = with(newt(), code, bad);
        // 7 and 8 come before 9, and 9 before 10, 11, 13 and 15
        book.refuse(&without(m.clone(), 25), 7, 25);
        book.refuse(&with(term(), code, bad), 8, code as u8);
        book.refuse(&with(m.clone(), 3, "ETRM"), 9, code as u8);
        book.refuse(&with(m.clone(), 10, "N"), 9, code as u8);
        book.refuse(&with(m, 8, "2000-01-01"), 9, code as u8);
        book.refuse(&with(modi(), code, bad), 9, code as u8);
    }
}

#[test]
fn what_a_row_holds_is_not_looked_up() {
    let mut book = Book::new(1);
    book.accept(&newt());
    let terms = line::TERMS..line::NEWLINE;
    let stored = book.line()[terms.clone()].replace("USD", "CNH");
    book.row_mut(0)[row::TERMS..row::TAIL].copy_from_slice(stored.as_bytes());
    book.accept(&term());
    assert_eq!(book.line()[terms], stored);
    book.refuse(&with(full("REVI", None), 21, "CNH"), 9, 21);
    book.accept(&full("REVI", None));
}
