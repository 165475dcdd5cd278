//! Section 8: the ledger.

use crate::amounts::is_cap;
use crate::sizes::{self, header, row, LARGEST_CAPACITY, SHORTEST_LEDGER, TERMS, TIME};

/// The greatest next identifier; no line takes it.
pub const IDENTIFIER_LIMIT: u64 = 1_000_000_000_000;

pub const UNKNOWN: u8 = 0;
pub const LIVE: u8 = 1;
pub const CLOSED: u8 = 2;
pub const ERRORED: u8 = 3;
pub const PORTED: u8 = 4;

/// The header's parts that differ from ledger to ledger.
pub struct Header {
    pub rows: u32,
    pub next_identifier: u64,
    pub caps: [u64; sizes::CAPS],
    pub capacity: u32,
    /// By status, from live to ported.
    pub totals: [u32; sizes::TOTALS],
}

impl Header {
    /// The total of a status, which is 1 to 4.
    pub fn total(&self, status: u8) -> u32 {
        self.totals[usize::from(status - LIVE)]
    }

    /// The totals add up to the rows in use. The sum is exact: four u32 fit a
    /// u64.
    fn sum_is_rows(&self) -> bool {
        self.totals.map(u64::from).iter().sum::<u64>() == u64::from(self.rows)
    }
}

/// Rules 1 and 3: the ledger has room for a row.
pub fn is_long_enough(ledger: &[u8]) -> bool {
    ledger.len() >= SHORTEST_LEDGER
}

/// The whole rows behind the header, up to the largest capacity (8.2).
fn capacity(length: usize) -> u32 {
    (length.saturating_sub(header::SIZE) / row::SIZE).min(LARGEST_CAPACITY) as u32
}

/// What opening writes (8.5). The ledger is long enough.
pub fn write_header(ledger: &mut [u8], caps: &[u64; sizes::CAPS]) {
    let capacity = capacity(ledger.len());
    put(ledger, header::ROWS, &0u32.to_le_bytes());
    put(
        ledger,
        header::FIRST_ROW,
        &(header::SIZE as u32).to_le_bytes(),
    );
    put(ledger, header::NEXT_IDENTIFIER, &1u64.to_le_bytes());
    for (i, cap) in caps.iter().enumerate() {
        put(ledger, cap_at(i), &cap.to_le_bytes());
    }
    put(ledger, header::ROW_SIZE, &(row::SIZE as u32).to_le_bytes());
    put(ledger, header::CAPACITY, &capacity.to_le_bytes());
    for status in LIVE..=PORTED {
        put(ledger, total_at(status), &0u32.to_le_bytes());
    }
}

/// Offset of a cap.
fn cap_at(place: usize) -> usize {
    header::CAPS + sizes::U64 * place
}

/// Offset of the total of a status, which is 1 to 4.
fn total_at(status: u8) -> usize {
    header::TOTALS + sizes::U32 * usize::from(status - LIVE)
}

/// Rule 3: the header, or None where the ledger is too short, the header
/// breaks the layout, has more rows than capacity, a cap that 2 refuses or
/// totals that do not add up to the rows in use.
pub fn read_header(ledger: &[u8]) -> Option<Header> {
    if !is_long_enough(ledger) {
        return None;
    }
    let header = Header {
        rows: u32_at(ledger, header::ROWS),
        next_identifier: u64_at(ledger, header::NEXT_IDENTIFIER),
        caps: [0, 1, 2, 3, 4].map(|place| u64_at(ledger, cap_at(place))),
        capacity: u32_at(ledger, header::CAPACITY),
        totals: [LIVE, CLOSED, ERRORED, PORTED].map(|status| u32_at(ledger, total_at(status))),
    };
    let right = u32_at(ledger, header::FIRST_ROW) == header::SIZE as u32
        && (1..=IDENTIFIER_LIMIT).contains(&header.next_identifier)
        && u32_at(ledger, header::ROW_SIZE) == row::SIZE as u32
        && header.capacity == capacity(ledger.len())
        && header.rows <= header.capacity
        && header.caps.iter().all(|&cap| is_cap(cap))
        && header.sum_is_rows();
    right.then_some(header)
}

/// A row as it is read.
#[derive(Clone, Copy)]
pub struct Row<'a> {
    bytes: &'a [u8],
}

impl<'a> Row<'a> {
    pub fn status(self) -> u8 {
        self.bytes[row::STATUS]
    }

    pub fn identifier(self) -> u64 {
        u64_at(self.bytes, row::IDENTIFIER)
    }

    /// The masked terms, whatever they hold.
    pub fn terms(self) -> [u8; TERMS] {
        let mut terms = [0; TERMS];
        terms.copy_from_slice(&self.bytes[row::TERMS..][..TERMS]);
        terms
    }

    /// The execution time is the first of the masked terms.
    pub fn execution_time(self) -> &'a [u8] {
        &self.bytes[row::TERMS..][..TIME]
    }

    /// Length and so many bytes are equal (8.4); the UTI has its form.
    fn is_of(self, uti: &[u8]) -> bool {
        usize::from(self.bytes[row::UTI_LENGTH]) == uti.len()
            && &self.bytes[row::UTI..][..uti.len()] == uti
    }
}

/// The swap's row and its place: the first of the used rows with this UTI.
/// The header is that of this ledger, so the used rows are inside it; the UTI
/// has its form.
pub fn find<'a>(ledger: &'a [u8], header: &Header, uti: &[u8]) -> Option<(usize, Row<'a>)> {
    let used = &ledger[header::SIZE..sizes::ledger_size(header.rows as usize)];
    used.chunks_exact(row::SIZE)
        .map(|bytes| Row { bytes })
        .enumerate()
        .find(|(_, row)| row.is_of(uti))
}

/// A row the ledger has.
fn row_mut(ledger: &mut [u8], place: usize) -> &mut [u8] {
    &mut ledger[sizes::ledger_size(place)..][..row::SIZE]
}

/// NEWT: the row behind those in use, and one more in use (8.6).
pub fn add_row(
    ledger: &mut [u8],
    header: &Header,
    status: u8,
    uti: &[u8],
    identifier: u64,
    terms: &[u8; TERMS],
) {
    let row = row_mut(ledger, header.rows as usize);
    row[row::STATUS] = status;
    row[row::UTI_LENGTH] = uti.len() as u8;
    row[row::UTI..][..sizes::UTI].fill(b' ');
    put(row, row::UTI, uti);
    put(row, row::IDENTIFIER, &identifier.to_le_bytes());
    put(row, row::TERMS, terms);
    row[row::TAIL..].fill(0);
    put(ledger, header::ROWS, &(header.rows + 1).to_le_bytes());
}

/// A full action other than NEWT writes status, terms and identifier, where a
/// line is due.
pub fn change_row(
    ledger: &mut [u8],
    place: usize,
    status: u8,
    identifier: u64,
    terms: &[u8; TERMS],
) {
    let row = row_mut(ledger, place);
    row[row::STATUS] = status;
    put(row, row::IDENTIFIER, &identifier.to_le_bytes());
    put(row, row::TERMS, terms);
}

/// TERM and EROR write status and identifier.
pub fn end_row(ledger: &mut [u8], place: usize, status: u8, identifier: u64) {
    let row = row_mut(ledger, place);
    row[row::STATUS] = status;
    put(row, row::IDENTIFIER, &identifier.to_le_bytes());
}

/// PRTO writes only the status.
pub fn port_row(ledger: &mut [u8], place: usize, status: u8) {
    row_mut(ledger, place)[row::STATUS] = status;
}

/// After a line the next identifier is 1 greater (8.7).
pub fn raise_next_identifier(ledger: &mut [u8], header: &Header) {
    let next = header.next_identifier + 1;
    put(ledger, header::NEXT_IDENTIFIER, &next.to_le_bytes());
}

/// A swap goes from the total of its old status to that of the new one (8.8);
/// an unknown swap is in none. Neither total leaves its 32 bits: by rule 14 the
/// old one is not 0, and by rule 3 none is more than the rows in use, which are
/// at most 100,000.
pub fn move_totals(ledger: &mut [u8], header: &Header, old: u8, new: u8) {
    if old == new {
        return;
    }
    if old != UNKNOWN {
        let lowered = header.total(old) - 1;
        put(ledger, total_at(old), &lowered.to_le_bytes());
    }
    let raised = header.total(new) + 1;
    put(ledger, total_at(new), &raised.to_le_bytes());
}

fn put(bytes: &mut [u8], at: usize, part: &[u8]) {
    bytes[at..at + part.len()].copy_from_slice(part);
}

fn u32_at(bytes: &[u8], at: usize) -> u32 {
    let mut number = [0; sizes::U32];
    number.copy_from_slice(&bytes[at..at + sizes::U32]);
    u32::from_le_bytes(number)
}

fn u64_at(bytes: &[u8], at: usize) -> u64 {
    let mut number = [0; sizes::U64];
    number.copy_from_slice(&bytes[at..at + sizes::U64]);
    u64::from_le_bytes(number)
}
