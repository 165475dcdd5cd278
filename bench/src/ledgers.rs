//! Ledgers with many rows, put together without submitting every swap.

use crate::messages::sound_new;
use crate::utis::Shape;
use compare::layout::{row_range, u32_at, EXECUTION_IN_TERMS, TERMS_IN_ROW, TERMS_SIZE};
use compare::layout::{total_place, Caps, CAPACITY_IN_HEADER, DAY_CAPS, NEXT_IN_HEADER};
use compare::layout::{IDENTIFIER_IN_ROW, LENGTH_IN_ROW, ROWS_IN_HEADER, STATUS_IN_ROW};
use compare::layout::{TOTALS, TOTALS_IN_HEADER, UTI_IN_ROW};
use compare::random::Random;
use sdr::{ledger_size, ACCEPTED, CLOSED, ERRORED, LIVE, PORTED};
use sdr::{HEADER_SIZE, LARGEST_CAPACITY, LINE_SIZE};

/// The caps of every ledger that is measured.
pub const CAPS: Caps = DAY_CAPS;
/// So many different terms are dealt out over the rows.
const PATTERNS: usize = 64;

/// A ledger's bytes.
pub struct Ledger {
    pub bytes: Vec<u8>,
}

impl Ledger {
    /// A ledger without rows.
    pub fn opened(capacity: usize) -> Ledger {
        let mut bytes = vec![0; ledger_size(capacity)];
        assert_eq!(checker::open(&mut bytes, &CAPS), ACCEPTED);
        Ledger { bytes }
    }

    /// A ledger with so many rows in use, and room for one more unless that is
    /// above the largest capacity. The last row is live.
    pub fn with_rows(rows: usize, shape: Shape) -> Ledger {
        let mut ledger = Ledger::opened((rows + 1).min(LARGEST_CAPACITY));
        let patterns = patterns();
        let mut totals = [0_u32; TOTALS];
        for place in 0..rows {
            let row = row_mut(&mut ledger.bytes, place);
            row.copy_from_slice(&patterns[place % PATTERNS]);
            name_row(row, &shape.uti(place), place as u64 + 1);
            row[STATUS_IN_ROW] = status_at(place, rows);
            totals[total_place(row[STATUS_IN_ROW])] += 1;
        }
        let totals = totals.map(u32::to_le_bytes);
        ledger.bytes[TOTALS_IN_HEADER].copy_from_slice(totals.as_flattened());
        ledger.bytes[ROWS_IN_HEADER].copy_from_slice(&(rows as u32).to_le_bytes());
        ledger.bytes[NEXT_IN_HEADER].copy_from_slice(&(rows as u64 + 1).to_le_bytes());
        ledger
    }

    /// The rows in use.
    pub fn rows(&self) -> usize {
        u32_at(&self.bytes, ROWS_IN_HEADER) as usize
    }

    /// The rows that there is room for.
    pub fn capacity(&self) -> usize {
        u32_at(&self.bytes, CAPACITY_IN_HEADER) as usize
    }

    /// A row's bytes.
    pub fn row(&self, place: usize) -> &[u8] {
        &self.bytes[row_range(place)]
    }

    pub fn status(&self, place: usize) -> u8 {
        self.row(place)[STATUS_IN_ROW]
    }

    pub fn uti(&self, place: usize) -> String {
        let row = self.row(place);
        text(&row[UTI_IN_ROW][..row[LENGTH_IN_ROW].into()])
    }

    /// The masked terms that a row holds.
    pub fn terms(&self, place: usize) -> &[u8; TERMS_SIZE] {
        let terms = &self.row(place)[TERMS_IN_ROW];
        terms.try_into().expect("the terms' size")
    }

    pub fn execution_time(&self, place: usize) -> String {
        text(&self.terms(place)[EXECUTION_IN_TERMS])
    }
}

/// Most swaps are live, some are closed, few errored or ported.
fn status_at(place: usize, rows: usize) -> u8 {
    match place % 20 {
        _ if place + 1 == rows => LIVE,
        15..=17 => CLOSED,
        18 => ERRORED,
        19 => PORTED,
        _ => LIVE,
    }
}

/// Rows as the checker writes them for sound NEWTs.
fn patterns() -> Vec<Vec<u8>> {
    let random = &mut Random::new(1);
    (0..PATTERNS)
        .map(|number| pattern(random, number))
        .collect()
}

fn pattern(random: &mut Random, number: usize) -> Vec<u8> {
    let mut ledger = Ledger::opened(1);
    let message = sound_new(random, &Shape::SharedPrefix.uti(number)).encode();
    let answer = checker::submit(&mut ledger.bytes, &mut [0; LINE_SIZE], &message);
    assert_eq!(answer.verdict, ACCEPTED);
    ledger.row(0).to_vec()
}

fn name_row(row: &mut [u8], uti: &str, identifier: u64) {
    row[LENGTH_IN_ROW] = uti.len() as u8;
    row[UTI_IN_ROW].fill(b' ');
    row[UTI_IN_ROW][..uti.len()].copy_from_slice(uti.as_bytes());
    row[IDENTIFIER_IN_ROW].copy_from_slice(&identifier.to_le_bytes());
}

fn row_mut(bytes: &mut [u8], place: usize) -> &mut [u8] {
    &mut bytes[row_range(place)]
}

/// Puts the header of a saved copy back.
pub fn put_header_back(ledger: &mut [u8], saved: &[u8]) {
    ledger[..HEADER_SIZE].copy_from_slice(&saved[..HEADER_SIZE]);
}

/// Puts one row of a saved copy back.
pub fn put_row_back(ledger: &mut [u8], saved: &[u8], place: usize) {
    row_mut(ledger, place).copy_from_slice(&saved[row_range(place)]);
}

fn text(bytes: &[u8]) -> String {
    String::from_utf8_lossy(bytes).into_owned()
}
