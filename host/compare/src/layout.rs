//! The sizes, offsets and limits of the specification. Ledgers that are put
//! together by hand stand beside it.

mod ledger;

pub use ledger::{described, place, total_place, totals_in, u32_at, u64_at, write, Header, Row};

use crate::lists::{CLASSES, ROW_STATUSES};
use std::ops::Range;

/// A field of so many bytes right behind another one.
const fn after(field: Range<usize>, size: usize) -> Range<usize> {
    field.end..field.end + size
}

/// The bytes of a u16.
pub const U16_SIZE: usize = 2;
/// The bytes of a u32.
pub const U32_SIZE: usize = 4;
/// The bytes of a u64.
pub const U64_SIZE: usize = 8;

// The message.

/// The longest message.
pub const LONGEST_MESSAGE: usize = 2_048;
/// The bytes of the count.
pub const COUNT_SIZE: usize = U16_SIZE;
/// An entry is a code and, behind it, an offset.
pub const OFFSET_IN_ENTRY: usize = U16_SIZE;
/// The bytes of an entry.
pub const ENTRY_SIZE: usize = OFFSET_IN_ENTRY + U16_SIZE;

// Forms of values.

/// The most digits of a number, in all and after the point.
#[derive(Clone, Copy)]
pub struct Num {
    pub digits: usize,
    pub after_point: usize,
}

/// The notional amount.
pub const NOTIONAL_NUM: Num = Num {
    digits: 25,
    after_point: 5,
};
/// A price or a spread.
pub const PRICE_NUM: Num = Num {
    digits: 18,
    after_point: 13,
};
/// A price or a spread with the notation for decimals.
pub const DECIMAL_NUM: Num = Num {
    digits: 11,
    after_point: 10,
};
/// A spread with the notation for basis points.
pub const BASIS_POINTS_NUM: Num = Num {
    digits: 5,
    after_point: 0,
};

/// The shortest UTI.
pub const SHORTEST_UTI: usize = 21;
/// The longest UTI.
pub const UTI_SIZE: usize = 52;
/// The characters of a LEI before its check digits.
pub const LEI_BODY_SIZE: usize = 18;
/// The longest package identifier.
pub const LONGEST_PACKAGE_IDENTIFIER: usize = 100;

// The tape line: the sizes of fields, and the fields one after the other.

/// The digits of an identifier.
pub const IDENTIFIER_DIGITS: usize = 12;
/// The characters of an action or event.
pub const WORD_SIZE: usize = 4;
/// The characters of a time.
pub const TIME_SIZE: usize = 20;
/// The characters of a date.
pub const DATE_SIZE: usize = 10;
/// One character, as of a truth.
pub const MARK_SIZE: usize = 1;
/// The characters of a price or a spread.
pub const PRICE_SIZE: usize = 20;
/// The characters of a currency.
pub const CURRENCY_SIZE: usize = 3;
/// The characters of an asset class.
pub const CLASS_SIZE: usize = 2;
/// The digits of the notional.
pub const NOTIONAL_SIZE: usize = 16;
/// The characters of a location.
pub const LOCATION_SIZE: usize = 2;

pub const IDENTIFIER_IN_LINE: Range<usize> = 0..IDENTIFIER_DIGITS;
pub const PREVIOUS_IN_LINE: Range<usize> = after(IDENTIFIER_IN_LINE, IDENTIFIER_DIGITS);
pub const ACTION_IN_LINE: Range<usize> = after(PREVIOUS_IN_LINE, WORD_SIZE);
pub const EVENT_IN_LINE: Range<usize> = after(ACTION_IN_LINE, WORD_SIZE);
pub const EVENT_TIME_IN_LINE: Range<usize> = after(EVENT_IN_LINE, TIME_SIZE);
pub const EXECUTION_IN_LINE: Range<usize> = after(EVENT_TIME_IN_LINE, TIME_SIZE);
pub const EFFECTIVE_IN_LINE: Range<usize> = after(EXECUTION_IN_LINE, DATE_SIZE);
pub const EXPIRATION_IN_LINE: Range<usize> = after(EFFECTIVE_IN_LINE, DATE_SIZE);
pub const CLEARED_IN_LINE: Range<usize> = after(EXPIRATION_IN_LINE, MARK_SIZE);
pub const NON_STANDARDIZED_IN_LINE: Range<usize> = after(CLEARED_IN_LINE, MARK_SIZE);
pub const BLOCK_IN_LINE: Range<usize> = after(NON_STANDARDIZED_IN_LINE, MARK_SIZE);
pub const LARGE_IN_LINE: Range<usize> = after(BLOCK_IN_LINE, MARK_SIZE);
pub const PACKAGE_IN_LINE: Range<usize> = after(LARGE_IN_LINE, MARK_SIZE);
pub const PRICE_IN_LINE: Range<usize> = after(PACKAGE_IN_LINE, PRICE_SIZE);
pub const PRICE_NOTATION_IN_LINE: Range<usize> = after(PRICE_IN_LINE, MARK_SIZE);
pub const PRICE_CURRENCY_IN_LINE: Range<usize> = after(PRICE_NOTATION_IN_LINE, CURRENCY_SIZE);
pub const CLASS_IN_LINE: Range<usize> = after(PRICE_CURRENCY_IN_LINE, CLASS_SIZE);
pub const NOTIONAL_IN_LINE: Range<usize> = after(CLASS_IN_LINE, NOTIONAL_SIZE);
pub const PLUS_IN_LINE: Range<usize> = after(NOTIONAL_IN_LINE, MARK_SIZE);
pub const NOTIONAL_CURRENCY_IN_LINE: Range<usize> = after(PLUS_IN_LINE, CURRENCY_SIZE);
pub const LOCATION_IN_LINE: Range<usize> = after(NOTIONAL_CURRENCY_IN_LINE, LOCATION_SIZE);
pub const SPREAD_IN_LINE: Range<usize> = after(LOCATION_IN_LINE, PRICE_SIZE);
pub const SPREAD_NOTATION_IN_LINE: Range<usize> = after(SPREAD_IN_LINE, MARK_SIZE);
pub const SPREAD_CURRENCY_IN_LINE: Range<usize> = after(SPREAD_NOTATION_IN_LINE, CURRENCY_SIZE);
pub const NEWLINE_IN_LINE: Range<usize> = after(SPREAD_CURRENCY_IN_LINE, MARK_SIZE);

/// The bytes of a line.
pub const LINE_SIZE: usize = NEWLINE_IN_LINE.end;
/// The masked terms: from the execution time up to the newline.
pub const TERMS_IN_LINE: Range<usize> = EXECUTION_IN_LINE.start..NEWLINE_IN_LINE.start;
/// The bytes of the masked terms.
pub const TERMS_SIZE: usize = TERMS_IN_LINE.end - TERMS_IN_LINE.start;
/// The fields of the masked terms, in order.
pub const FIELDS_OF_TERMS: [Range<usize>; 19] = [
    EXECUTION_IN_LINE,
    EFFECTIVE_IN_LINE,
    EXPIRATION_IN_LINE,
    CLEARED_IN_LINE,
    NON_STANDARDIZED_IN_LINE,
    BLOCK_IN_LINE,
    LARGE_IN_LINE,
    PACKAGE_IN_LINE,
    PRICE_IN_LINE,
    PRICE_NOTATION_IN_LINE,
    PRICE_CURRENCY_IN_LINE,
    CLASS_IN_LINE,
    NOTIONAL_IN_LINE,
    PLUS_IN_LINE,
    NOTIONAL_CURRENCY_IN_LINE,
    LOCATION_IN_LINE,
    SPREAD_IN_LINE,
    SPREAD_NOTATION_IN_LINE,
    SPREAD_CURRENCY_IN_LINE,
];
/// The execution time opens the masked terms.
pub const EXECUTION_IN_TERMS: Range<usize> = 0..TIME_SIZE;

// The header.

/// A cap for each asset class.
pub type Caps = [u64; CLASSES.len()];
/// So many totals: one for each status of a row.
pub const TOTALS: usize = ROW_STATUSES.len();

pub const ROWS_IN_HEADER: Range<usize> = 0..U32_SIZE;
pub const FIRST_ROW_IN_HEADER: Range<usize> = after(ROWS_IN_HEADER, U32_SIZE);
pub const NEXT_IN_HEADER: Range<usize> = after(FIRST_ROW_IN_HEADER, U64_SIZE);
pub const CAPS_IN_HEADER: Range<usize> = after(NEXT_IN_HEADER, CLASSES.len() * U64_SIZE);
pub const ROW_SIZE_IN_HEADER: Range<usize> = after(CAPS_IN_HEADER, U32_SIZE);
pub const CAPACITY_IN_HEADER: Range<usize> = after(ROW_SIZE_IN_HEADER, U32_SIZE);
pub const TOTALS_IN_HEADER: Range<usize> = after(CAPACITY_IN_HEADER, TOTALS * U32_SIZE);

/// The bytes of the header.
pub const HEADER_SIZE: usize = TOTALS_IN_HEADER.end;

// A row.

/// The zeros that end a row.
pub const TAIL_SIZE: usize = 5;

pub const STATUS_IN_ROW: usize = 0;
pub const LENGTH_IN_ROW: usize = STATUS_IN_ROW + 1;
pub const UTI_IN_ROW: Range<usize> = after(0..LENGTH_IN_ROW + 1, UTI_SIZE);
pub const IDENTIFIER_IN_ROW: Range<usize> = after(UTI_IN_ROW, U64_SIZE);
pub const TERMS_IN_ROW: Range<usize> = after(IDENTIFIER_IN_ROW, TERMS_SIZE);
pub const TAIL_IN_ROW: Range<usize> = after(TERMS_IN_ROW, TAIL_SIZE);

/// The bytes of a row.
pub const ROW_SIZE: usize = TAIL_IN_ROW.end;

/// The shortest ledger: a header and one row.
pub const SHORTEST_LEDGER: usize = HEADER_SIZE + ROW_SIZE;
/// The most rows that a ledger can have.
pub const LARGEST_CAPACITY: usize = 100_000;
/// Identifiers stay below this; the next one may come to it.
pub const IDENTIFIER_LIMIT: u64 = 1_000_000_000_000;
/// The smallest cap.
pub const SMALLEST_CAP: u64 = 1_000;
/// The largest cap.
pub const LARGEST_CAP: u64 = 1_000_000_000_000_000;

// The day run.

/// The bytes of the length before a message.
pub const LENGTH_SIZE: usize = U16_SIZE;
/// The largest length.
pub const LARGEST_LENGTH: usize = 65_535;
/// The rows that the day run opens.
pub const DAY_ROWS: usize = 340;
/// The caps that the day run opens with.
pub const DAY_CAPS: Caps = [250_000_000; CLASSES.len()];

/// The rows that go into a ledger of a length.
pub fn capacity(length: usize) -> usize {
    (length.saturating_sub(HEADER_SIZE) / ROW_SIZE).min(LARGEST_CAPACITY)
}

/// The length of a ledger that has exactly so many rows.
pub const fn ledger_size(rows: usize) -> usize {
    HEADER_SIZE + ROW_SIZE * rows
}

/// Where a row lies in the ledger.
pub fn row_range(row: usize) -> Range<usize> {
    ledger_size(row)..ledger_size(row + 1)
}

/// The sums are held to the specification by tests/specification.rs.
#[cfg(test)]
mod tests {
    use super::*;

    #[test]
    fn an_opened_header() {
        let header = Header::opened(ledger_size(LARGEST_CAPACITY), [1, 2, 3, 4, 5]);
        let bytes = header.encode();
        assert_eq!(u32_at(&bytes, FIRST_ROW_IN_HEADER) as usize, HEADER_SIZE);
        assert_eq!(u32_at(&bytes, ROW_SIZE_IN_HEADER) as usize, ROW_SIZE);
        assert_eq!(u32_at(&bytes, CAPACITY_IN_HEADER), 100_000);
        let caps = bytes[CAPS_IN_HEADER].chunks(U64_SIZE);
        assert!(caps.map(|cap| cap[0]).eq(1..=5));
        assert_eq!(totals_in(&bytes), [0; TOTALS]);
        let due = format!("{HEADER_SIZE} bytes, {header:?}");
        assert_eq!(described(&bytes), due);
    }

    #[test]
    fn a_header_with_totals() {
        let mut header = Header::opened(SHORTEST_LEDGER, [1, 2, 3, 4, 5]);
        header.totals = [6, 7, 8, 0x0a0b_0c0d];
        let bytes = header.encode();
        let due = [6, 0, 0, 0, 7, 0, 0, 0, 8, 0, 0, 0, 0x0d, 0x0c, 0x0b, 0x0a];
        assert_eq!(bytes[TOTALS_IN_HEADER], due);
        assert_eq!(totals_in(&bytes), header.totals);
        let due = format!("{HEADER_SIZE} bytes, {header:?}");
        assert_eq!(described(&bytes), due);
    }

    #[test]
    fn rows_are_counted_by_their_status() {
        let row = |status| Row {
            status,
            ..Row::new(b"", 1, [b' '; TERMS_SIZE])
        };
        let mut header = Header::opened(SHORTEST_LEDGER, [1, 2, 3, 4, 5]);
        header.count(&[4, 1, 2, 1, 3, 1, 2, 3, 1, 3].map(row));
        assert_eq!((header.rows, header.totals), (10, [4, 2, 3, 1]));
        for (place, status) in ROW_STATUSES.into_iter().enumerate() {
            assert_eq!(total_place(status), place);
        }
    }

    #[test]
    fn capacities_and_places() {
        for (length, rows) in [
            (0, 0),
            (SHORTEST_LEDGER - 1, 0),
            (SHORTEST_LEDGER, 1),
            (SHORTEST_LEDGER + ROW_SIZE - 1, 1),
            (SHORTEST_LEDGER + ROW_SIZE, 2),
            (HEADER_SIZE + 100_000 * ROW_SIZE - 1, 99_999),
            (HEADER_SIZE + 100_000 * ROW_SIZE, 100_000),
            (HEADER_SIZE + 100_001 * ROW_SIZE, 100_000),
        ] {
            assert_eq!(capacity(length), rows, "{length}");
        }
        assert_eq!(row_range(0), HEADER_SIZE..SHORTEST_LEDGER);
        assert_eq!(
            place(HEADER_SIZE - 1),
            format!("header byte {}", HEADER_SIZE - 1)
        );
        assert_eq!(place(SHORTEST_LEDGER + 75), "row 1 byte 75");
    }
}
