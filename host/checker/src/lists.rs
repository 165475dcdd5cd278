//! Clause 4.14: the currencies and the locations. The lists are the files in
//! data/: a line is a code and a newline, and the codes rise strictly.

use crate::sizes::{CURRENCY, LOCATION};

/// The alphabetic codes of ISO 4217.
const CURRENCIES: &[[u8; CURRENCY + 1]] =
    include_bytes!("../../../data/iso-4217.txt").as_chunks().0;

/// The two-letter codes of ISO 3166-1.
const LOCATIONS: &[[u8; LOCATION + 1]] =
    include_bytes!("../../../data/iso-3166-1.txt").as_chunks().0;

/// Codes 19, 21 and 28: one of the currencies.
pub fn is_currency(v: &[u8]) -> bool {
    is_listed(v, CURRENCIES)
}

/// Code 22: one of the locations.
pub fn is_location(v: &[u8]) -> bool {
    is_listed(v, LOCATIONS)
}

/// Is the value the code of a line, byte for byte (1.3)?
fn is_listed<const LINE: usize>(v: &[u8], lines: &[[u8; LINE]]) -> bool {
    let found = lines.binary_search_by(|line| line[..LINE - 1].cmp(v));
    found.is_ok()
}
