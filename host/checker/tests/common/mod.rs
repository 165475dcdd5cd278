//! Messages and ledgers for the tests.
#![allow(dead_code)]

use checker::sizes::{self, header, line, row, COUNT, ENTRY, TOTALS, U32, U64};
use checker::{open, submit, Answer};
use std::collections::BTreeMap;
use std::ops::Range;

pub const UTI: &str = "5493001KJTIIGC8Y1R12SWAP0001";
pub const LEI_1: &str = "5493001KJTIIGC8Y1R12";
pub const LEI_2: &str = "529900T8BM49AURSDO55";
pub const EXECUTED: &str = "2024-02-29T10:15:30Z";
/// All caps at 250,000,000.
pub const CAPS: [u64; 5] = [250_000_000; 5];

/// Elements of a message by code.
pub type Elements = BTreeMap<u16, Vec<u8>>;

/// Lays out a message: count, entries of code and offset, values.
pub fn laid_out(elements: &Elements) -> Vec<u8> {
    let mut header = (elements.len() as u16).to_le_bytes().to_vec();
    let mut values: Vec<u8> = Vec::new();
    for (code, v) in elements {
        let offset = COUNT + ENTRY * elements.len() + values.len();
        header.extend(code.to_le_bytes());
        header.extend((offset as u16).to_le_bytes());
        values.extend(v);
    }
    header.extend(values);
    header
}

/// A full message that is accepted where the status admits its action.
pub fn full(action: &str, event: Option<&str>) -> Elements {
    let mut m = short(action, event);
    for (code, v) in [
        (6, EXECUTED),
        (7, "2024-03-01"),
        (8, "2029-03-01"),
        (9, "2029-03-05"),
        (10, "I"),
        (12, "False"),
        (13, "true"),
        (14, "UNAL"),
        (15, "false"),
        (20, "12345678.9"),
        (21, "USD"),
        (23, LEI_1),
        (24, LEI_2),
        (25, "IR"),
    ] {
        set(&mut m, code, v);
    }
    m
}

/// A message of the codes 1 to 5 alone: TERM, EROR and PRTO.
pub fn short(action: &str, event: Option<&str>) -> Elements {
    let mut m = Elements::new();
    set(&mut m, 1, UTI);
    set(&mut m, 2, action);
    if let Some(event) = event {
        set(&mut m, 3, event);
    }
    set(&mut m, 4, "2024-03-02T09:00:00Z");
    set(&mut m, 5, "2024-03-02T09:05:00Z");
    m
}

/// Adds a package with a price: codes 15 to 19.
pub fn with_package(mut m: Elements, price: &str, notation: &str) -> Elements {
    set(&mut m, 15, "True");
    set(&mut m, 16, "Package1");
    set(&mut m, 17, price);
    set(&mut m, 18, notation);
    if notation == "1" {
        set(&mut m, 19, "EUR");
    }
    m
}

/// Adds a package with a spread: codes 15, 16 and 26 to 28.
pub fn with_spread(mut m: Elements, spread: &str, notation: &str) -> Elements {
    set(&mut m, 15, "True");
    set(&mut m, 16, "Package1");
    set(&mut m, 26, spread);
    set(&mut m, 27, notation);
    if notation == "1" {
        set(&mut m, 28, "GBP");
    }
    m
}

pub fn set(m: &mut Elements, code: u16, v: &str) {
    m.insert(code, v.as_bytes().to_vec());
}

pub fn with(mut m: Elements, code: u16, v: &str) -> Elements {
    set(&mut m, code, v);
    m
}

pub fn without(mut m: Elements, code: u16) -> Elements {
    m.remove(&code);
    m
}

pub fn newt() -> Elements {
    full("NEWT", Some("TRAD"))
}

/// A line is due for it after any other of these messages: its notional is
/// another.
pub fn modi() -> Elements {
    with(full("MODI", Some("TRAD")), 20, "2000000")
}

/// A MODI that shows what the plain NEWT shows.
pub fn modi_as_newt() -> Elements {
    full("MODI", Some("TRAD"))
}

pub fn term() -> Elements {
    short("TERM", Some("ETRM"))
}

pub fn prto() -> Elements {
    short("PRTO", Some("PTNG"))
}

/// The notional and the plus sign in a line.
pub const AMOUNT: Range<usize> = line::NOTIONAL..line::NOTIONAL_CURRENCY;
/// Bytes of the tape buffer behind the line.
pub const SPARE: usize = 4;

/// A ledger of some rows and a tape buffer.
#[derive(Clone, PartialEq, Eq, Debug)]
pub struct Book {
    pub ledger: Vec<u8>,
    pub tape: Vec<u8>,
}

impl Book {
    pub fn new(rows: usize) -> Book {
        Book::with_caps(rows, &CAPS)
    }

    pub fn with_caps(rows: usize, caps: &[u64; 5]) -> Book {
        let mut ledger = vec![0xEE; sizes::ledger_size(rows)];
        assert_eq!(open(&mut ledger, caps), 0);
        Book {
            ledger,
            tape: vec![0xDD; line::SIZE + SPARE],
        }
    }

    /// Submits; a refusal changes no byte and has identifier 0.
    pub fn submit(&mut self, m: &Elements) -> Answer {
        self.submit_bytes(&laid_out(m))
    }

    pub fn submit_bytes(&mut self, message: &[u8]) -> Answer {
        let before = self.clone();
        let answer = submit(&mut self.ledger, &mut self.tape, message);
        assert_eq!(answer.status, 0);
        if answer.verdict != 0 {
            assert_eq!(answer.identifier, 0);
            assert!(*self == before, "a refusal wrote");
        }
        answer
    }

    /// Submits what is to be accepted, and answers the identifier.
    pub fn accept(&mut self, m: &Elements) -> u64 {
        let answer = self.submit(m);
        assert_eq!((answer.verdict, answer.element), (0, 0));
        answer.identifier
    }

    /// Submits what is to be refused.
    pub fn refuse(&mut self, m: &Elements, verdict: u8, element: u8) {
        let answer = self.submit(m);
        assert_eq!((answer.verdict, answer.element), (verdict, element));
    }

    pub fn line(&self) -> &str {
        std::str::from_utf8(&self.tape[..line::SIZE]).unwrap()
    }

    pub fn row(&self, place: usize) -> &[u8] {
        &self.ledger[sizes::ledger_size(place)..][..row::SIZE]
    }

    pub fn row_mut(&mut self, place: usize) -> &mut [u8] {
        &mut self.ledger[sizes::ledger_size(place)..][..row::SIZE]
    }

    /// The totals in the header, from live to ported.
    pub fn totals(&self) -> [u32; TOTALS] {
        [0, 1, 2, 3].map(|place| self.u32_at(header::TOTALS + U32 * place))
    }

    pub fn set_totals(&mut self, totals: [u32; TOTALS]) {
        for (place, total) in totals.into_iter().enumerate() {
            self.set_u32(header::TOTALS + U32 * place, total);
        }
    }

    /// Gives the only row in use a status from 1 to 4, with the totals of it.
    pub fn set_only_status(&mut self, status: u8) {
        assert_eq!(self.u32_at(header::ROWS), 1);
        self.row_mut(0)[row::STATUS] = status;
        self.set_totals([1, 2, 3, 4].map(|s| u32::from(s == status)));
    }

    pub fn u32_at(&self, at: usize) -> u32 {
        u32::from_le_bytes(self.ledger[at..at + U32].try_into().unwrap())
    }

    pub fn u64_at(&self, at: usize) -> u64 {
        u64::from_le_bytes(self.ledger[at..at + U64].try_into().unwrap())
    }

    pub fn set_u32(&mut self, at: usize, n: u32) {
        self.ledger[at..at + U32].copy_from_slice(&n.to_le_bytes());
    }

    pub fn set_u64(&mut self, at: usize, n: u64) {
        self.ledger[at..at + U64].copy_from_slice(&n.to_le_bytes());
    }
}

pub fn refused(verdict: u8, element: u8) -> Answer {
    Answer {
        verdict,
        element,
        ..Answer::default()
    }
}
