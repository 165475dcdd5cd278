//! The wrapper and the C header use the same words for the same numbers.

use std::collections::BTreeMap;
use std::path::Path;

/// The names and numbers that the wrapper and include/sdr.h have in common.
const SHARED: [(&str, usize); 30] = [
    ("HEADER_SIZE", sdr::HEADER_SIZE),
    ("ROW_SIZE", sdr::ROW_SIZE),
    ("LARGEST_CAPACITY", sdr::LARGEST_CAPACITY),
    ("LINE_SIZE", sdr::LINE_SIZE),
    ("LONGEST_MESSAGE", sdr::LONGEST_MESSAGE),
    ("ACCEPTED", sdr::ACCEPTED as usize),
    ("LEDGER_SHORT", sdr::LEDGER_SHORT as usize),
    ("CAP_WRONG", sdr::CAP_WRONG as usize),
    ("LEDGER_WRONG", sdr::LEDGER_WRONG as usize),
    ("TAPE_SHORT", sdr::TAPE_SHORT as usize),
    ("LAYOUT_WRONG", sdr::LAYOUT_WRONG as usize),
    ("ACTION_WRONG", sdr::ACTION_WRONG as usize),
    ("ELEMENT_MISSING", sdr::ELEMENT_MISSING as usize),
    ("ELEMENT_NOT_TAKEN", sdr::ELEMENT_NOT_TAKEN as usize),
    ("FORM_BROKEN", sdr::FORM_BROKEN as usize),
    ("NOT_A_PAIR", sdr::NOT_A_PAIR as usize),
    ("CONDITIONAL_MISSING", sdr::CONDITIONAL_MISSING as usize),
    ("PRICE_TOO_LONG", sdr::PRICE_TOO_LONG as usize),
    ("DATES_DISORDERED", sdr::DATES_DISORDERED as usize),
    ("ROW_WRONG", sdr::ROW_WRONG as usize),
    ("NOT_ADMITTED", sdr::NOT_ADMITTED as usize),
    ("OTHER_TIME", sdr::OTHER_TIME as usize),
    ("LEDGER_FULL", sdr::LEDGER_FULL as usize),
    ("IDENTIFIERS_SPENT", sdr::IDENTIFIERS_SPENT as usize),
    ("PRICE_AND_SPREAD", sdr::PRICE_AND_SPREAD as usize),
    ("UNKNOWN", sdr::UNKNOWN as usize),
    ("LIVE", sdr::LIVE as usize),
    ("CLOSED", sdr::CLOSED as usize),
    ("ERRORED", sdr::ERRORED as usize),
    ("PORTED", sdr::PORTED as usize),
];

/// The header's plain numbers: `#define SDR_NAME 1` and `SDR_NAME = 1,`.
fn numbers() -> BTreeMap<String, usize> {
    let package = Path::new(env!("CARGO_MANIFEST_DIR"));
    let header = std::fs::read_to_string(package.join("../../include/sdr.h"));
    let header = header.expect("include/sdr.h can be read");
    header.lines().filter_map(number).collect()
}

fn number(line: &str) -> Option<(String, usize)> {
    let line = line.trim_start();
    let line = line.strip_prefix("#define ").unwrap_or(line);
    let words = line.strip_prefix("SDR_")?.replace(['=', ','], " ");
    let mut words = words.split_whitespace();
    let name = words.next()?.to_string();
    Some((name, words.next()?.parse().ok()?))
}

#[test]
fn names_and_numbers_agree() {
    let numbers = numbers();
    for (name, number) in SHARED {
        assert_eq!(numbers.get(name), Some(&number), "SDR_{name}");
    }
    assert_eq!(sdr::SHORTEST_LEDGER, sdr::ledger_size(1));
}
