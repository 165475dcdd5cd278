//! The sizes, offsets and limits of the specification, in bytes. A field stands
//! where the one before it ends.

/// Clause 8.2.
pub const LARGEST_CAPACITY: usize = 100_000;
/// Clause 2.6.
pub const LONGEST_MESSAGE: usize = 2_048;
/// Clause 11.1.
pub const DAY_ROWS: usize = 340;

pub const U16: usize = 2;
pub const U32: usize = 4;
pub const U64: usize = 8;

/// The count that opens a message.
pub const COUNT: usize = U16;
/// An entry of a message's header: code and offset.
pub const ENTRY: usize = U16 + U16;

/// The longest UTI, and its field in a row.
pub const UTI: usize = 52;
/// An action or an event.
pub const WORD: usize = 4;
pub const TIME: usize = 20;
pub const DATE: usize = 10;
pub const CURRENCY: usize = 3;
pub const LOCATION: usize = 2;
pub const ASSET_CLASS: usize = 2;
/// Digits of an identifier in a line.
pub const IDENTIFIER: usize = 12;
/// The price in a line; the spread has as much (7.4).
pub const PRICE: usize = 20;
/// Digits of the notional in a line.
pub const NOTIONAL: usize = 16;
/// The caps: one for each asset class.
pub const CAPS: usize = 5;
/// The totals: one for each status from 1 to 4.
pub const TOTALS: usize = 4;

/// Section 7: offsets.
pub mod line {
    use super::{ASSET_CLASS, CURRENCY, DATE, TIME, WORD};

    pub const IDENTIFIER: usize = 0;
    pub const PREVIOUS: usize = IDENTIFIER + super::IDENTIFIER;
    pub const ACTION: usize = PREVIOUS + super::IDENTIFIER;
    pub const EVENT: usize = ACTION + WORD;
    pub const EVENT_TIME: usize = EVENT + WORD;
    pub const EXECUTION_TIME: usize = EVENT_TIME + TIME;
    pub const EFFECTIVE: usize = EXECUTION_TIME + TIME;
    pub const EXPIRATION: usize = EFFECTIVE + DATE;
    pub const CLEARED: usize = EXPIRATION + DATE;
    pub const NON_STANDARDIZED: usize = CLEARED + 1;
    pub const BLOCK: usize = NON_STANDARDIZED + 1;
    pub const LARGE: usize = BLOCK + 1;
    pub const PACKAGE: usize = LARGE + 1;
    pub const PRICE: usize = PACKAGE + 1;
    pub const PRICE_NOTATION: usize = PRICE + super::PRICE;
    pub const PRICE_CURRENCY: usize = PRICE_NOTATION + 1;
    pub const CLASS: usize = PRICE_CURRENCY + CURRENCY;
    pub const NOTIONAL: usize = CLASS + ASSET_CLASS;
    pub const PLUS: usize = NOTIONAL + super::NOTIONAL;
    pub const NOTIONAL_CURRENCY: usize = PLUS + 1;
    pub const LOCATION: usize = NOTIONAL_CURRENCY + CURRENCY;
    pub const SPREAD: usize = LOCATION + super::LOCATION;
    pub const SPREAD_NOTATION: usize = SPREAD + super::PRICE;
    pub const SPREAD_CURRENCY: usize = SPREAD_NOTATION + 1;
    pub const NEWLINE: usize = SPREAD_CURRENCY + CURRENCY;
    pub const SIZE: usize = NEWLINE + 1;

    /// The masked terms, from the execution time up to the newline.
    pub const TERMS: usize = EXECUTION_TIME;
    pub const TERMS_END: usize = NEWLINE;
}

/// Bytes of the masked terms.
pub const TERMS: usize = line::TERMS_END - line::TERMS;

/// Clause 8.1: offsets in the header.
pub mod header {
    use super::{U32, U64};

    pub const ROWS: usize = 0;
    pub const FIRST_ROW: usize = ROWS + U32;
    pub const NEXT_IDENTIFIER: usize = FIRST_ROW + U32;
    pub const CAPS: usize = NEXT_IDENTIFIER + U64;
    pub const ROW_SIZE: usize = CAPS + super::CAPS * U64;
    pub const CAPACITY: usize = ROW_SIZE + U32;
    pub const TOTALS: usize = CAPACITY + U32;
    pub const SIZE: usize = TOTALS + super::TOTALS * U32;
}

/// Clause 8.3: offsets in a row.
pub mod row {
    pub const STATUS: usize = 0;
    pub const UTI_LENGTH: usize = STATUS + 1;
    pub const UTI: usize = UTI_LENGTH + 1;
    pub const IDENTIFIER: usize = UTI + super::UTI;
    pub const TERMS: usize = IDENTIFIER + super::U64;
    pub const TAIL: usize = TERMS + super::TERMS;
    pub const SIZE: usize = TAIL + 5;
}

/// A ledger of some rows, and where the row behind them starts.
pub const fn ledger_size(rows: usize) -> usize {
    header::SIZE + row::SIZE * rows
}

/// Header and one row; rules 1 and 3 ask for as much.
pub const SHORTEST_LEDGER: usize = ledger_size(1);

/// The numbers that the specification writes out.
#[cfg(test)]
mod tests {
    use super::*;
    use crate::LAST_CODE;

    #[test]
    fn the_tape_line() {
        let offsets = [
            (line::IDENTIFIER, 0),
            (line::PREVIOUS, 12),
            (line::ACTION, 24),
            (line::EVENT, 28),
            (line::EVENT_TIME, 32),
            (line::EXECUTION_TIME, 52),
            (line::EFFECTIVE, 72),
            (line::EXPIRATION, 82),
            (line::CLEARED, 92),
            (line::NON_STANDARDIZED, 93),
            (line::BLOCK, 94),
            (line::LARGE, 95),
            (line::PACKAGE, 96),
            (line::PRICE, 97),
            (line::PRICE_NOTATION, 117),
            (line::PRICE_CURRENCY, 118),
            (line::CLASS, 121),
            (line::NOTIONAL, 123),
            (line::PLUS, 139),
            (line::NOTIONAL_CURRENCY, 140),
            (line::LOCATION, 143),
            (line::SPREAD, 145),
            (line::SPREAD_NOTATION, 165),
            (line::SPREAD_CURRENCY, 166),
            (line::NEWLINE, 169),
            (line::SIZE, 170),
        ];
        for (sum, offset) in offsets {
            assert_eq!(sum, offset);
        }
        assert_eq!((line::TERMS, line::TERMS_END, TERMS), (52, 169, 117));
    }

    #[test]
    fn the_ledger() {
        let header = [
            (header::ROWS, 0),
            (header::FIRST_ROW, 4),
            (header::NEXT_IDENTIFIER, 8),
            (header::CAPS, 16),
            (header::ROW_SIZE, 56),
            (header::CAPACITY, 60),
            (header::TOTALS, 64),
            (header::SIZE, 80),
        ];
        let row = [
            (row::STATUS, 0),
            (row::UTI_LENGTH, 1),
            (row::UTI, 2),
            (row::IDENTIFIER, 54),
            (row::TERMS, 62),
            (row::TAIL, 179),
            (row::SIZE, 184),
        ];
        for (sum, offset) in header.into_iter().chain(row) {
            assert_eq!(sum, offset);
        }
        assert_eq!(SHORTEST_LEDGER, 264);
        assert_eq!(ledger_size(340), 62_640);
    }

    #[test]
    fn limits() {
        assert_eq!((COUNT, ENTRY, LAST_CODE), (2, 4, 28));
        assert_eq!((LONGEST_MESSAGE, LARGEST_CAPACITY), (2_048, 100_000));
        assert_eq!((DAY_ROWS, CAPS, TOTALS, UTI), (340, 5, 4, 52));
    }
}
