//! Ledgers put together by hand, and ledgers in words.

use super::*;

/// The ledger's header.
#[derive(Clone, Debug, PartialEq, Eq)]
pub struct Header {
    pub rows: u32,
    pub first_row: u32,
    pub next: u64,
    pub caps: Caps,
    pub row_size: u32,
    pub capacity: u32,
    pub totals: [u32; TOTALS],
}

impl Header {
    /// The header that opening writes into a ledger of a length.
    pub fn opened(length: usize, caps: Caps) -> Self {
        Header {
            rows: 0,
            first_row: HEADER_SIZE as u32,
            next: 1,
            caps,
            row_size: ROW_SIZE as u32,
            capacity: capacity(length) as u32,
            totals: [0; TOTALS],
        }
    }

    /// Takes these rows into use: their number, and how many have each status.
    pub fn count(&mut self, rows: &[Row]) {
        let with = |status| rows.iter().filter(|row| row.status == status).count();
        self.rows = rows.len() as u32;
        self.totals = ROW_STATUSES.map(|status| with(status) as u32);
    }

    /// The header's bytes.
    pub fn encode(&self) -> [u8; HEADER_SIZE] {
        let mut bytes = [0; HEADER_SIZE];
        bytes[ROWS_IN_HEADER].copy_from_slice(&self.rows.to_le_bytes());
        bytes[FIRST_ROW_IN_HEADER].copy_from_slice(&self.first_row.to_le_bytes());
        bytes[NEXT_IN_HEADER].copy_from_slice(&self.next.to_le_bytes());
        let caps = self.caps.map(u64::to_le_bytes);
        bytes[CAPS_IN_HEADER].copy_from_slice(caps.as_flattened());
        bytes[ROW_SIZE_IN_HEADER].copy_from_slice(&self.row_size.to_le_bytes());
        bytes[CAPACITY_IN_HEADER].copy_from_slice(&self.capacity.to_le_bytes());
        let totals = self.totals.map(u32::to_le_bytes);
        bytes[TOTALS_IN_HEADER].copy_from_slice(totals.as_flattened());
        bytes
    }
}

/// A row of the ledger.
#[derive(Clone, Debug, PartialEq, Eq)]
pub struct Row {
    pub status: u8,
    pub length: u8,
    pub uti: [u8; UTI_SIZE],
    pub identifier: u64,
    pub terms: [u8; TERMS_SIZE],
    pub tail: [u8; TAIL_SIZE],
}

impl Row {
    /// The row that NEWT writes.
    pub fn new(uti: &[u8], identifier: u64, terms: [u8; TERMS_SIZE]) -> Self {
        let mut padded = [b' '; UTI_SIZE];
        padded[..uti.len()].copy_from_slice(uti);
        Row {
            status: sdr::LIVE,
            length: uti.len() as u8,
            uti: padded,
            identifier,
            terms,
            tail: [0; TAIL_SIZE],
        }
    }

    /// The UTI without its padding.
    pub fn uti(&self) -> &[u8] {
        &self.uti[..usize::from(self.length)]
    }

    /// The row's bytes.
    pub fn encode(&self) -> [u8; ROW_SIZE] {
        let mut bytes = [0; ROW_SIZE];
        bytes[STATUS_IN_ROW] = self.status;
        bytes[LENGTH_IN_ROW] = self.length;
        bytes[UTI_IN_ROW].copy_from_slice(&self.uti);
        bytes[IDENTIFIER_IN_ROW].copy_from_slice(&self.identifier.to_le_bytes());
        bytes[TERMS_IN_ROW].copy_from_slice(&self.terms);
        bytes[TAIL_IN_ROW].copy_from_slice(&self.tail);
        bytes
    }
}

/// Writes header and rows over the start of a ledger, cut where it ends.
pub fn write(ledger: &mut [u8], header: &Header, rows: &[Row]) {
    let mut bytes = header.encode().to_vec();
    for row in rows {
        bytes.extend(row.encode());
    }
    let length = bytes.len().min(ledger.len());
    ledger[..length].copy_from_slice(&bytes[..length]);
}

/// The number that a field of eight bytes holds.
pub fn u64_at(bytes: &[u8], field: Range<usize>) -> u64 {
    u64::from_le_bytes(bytes[field].try_into().expect("eight bytes"))
}

/// The number that a field of four bytes holds.
pub fn u32_at(bytes: &[u8], field: Range<usize>) -> u32 {
    u32::from_le_bytes(bytes[field].try_into().expect("four bytes"))
}

/// The totals that a ledger's header holds.
pub fn totals_in(ledger: &[u8]) -> [u32; TOTALS] {
    let mut totals = ledger[TOTALS_IN_HEADER].chunks_exact(U32_SIZE);
    ROW_STATUSES.map(|_| u32_at(totals.next().expect("a total"), 0..U32_SIZE))
}

/// The place of a row's status among the totals.
pub fn total_place(status: u8) -> usize {
    let place = ROW_STATUSES.iter().position(|&one| one == status);
    place.expect("a status of a row")
}

/// Says in words where a byte of the ledger lies.
pub fn place(at: usize) -> String {
    if at < HEADER_SIZE {
        return format!("header byte {at}");
    }
    let row = (at - HEADER_SIZE) / ROW_SIZE;
    format!("row {row} byte {}", (at - HEADER_SIZE) % ROW_SIZE)
}

/// Says in words what a ledger's header holds.
pub fn described(ledger: &[u8]) -> String {
    let length = ledger.len();
    if length < HEADER_SIZE {
        return format!("{length} bytes");
    }
    let mut caps = ledger[CAPS_IN_HEADER].chunks_exact(U64_SIZE);
    let header = Header {
        rows: u32_at(ledger, ROWS_IN_HEADER),
        first_row: u32_at(ledger, FIRST_ROW_IN_HEADER),
        next: u64_at(ledger, NEXT_IN_HEADER),
        caps: CLASSES.map(|_| u64_at(caps.next().expect("a cap"), 0..U64_SIZE)),
        row_size: u32_at(ledger, ROW_SIZE_IN_HEADER),
        capacity: u32_at(ledger, CAPACITY_IN_HEADER),
        totals: totals_in(ledger),
    };
    format!("{length} bytes, {header:?}")
}
