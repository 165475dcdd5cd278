//! Section 7: the tape line.

use crate::amounts::masked_amount;
use crate::elements::{
    is_due, is_not_cleared, quoted, Action, ASSET_CLASS, BLOCK_ELECTION, CLEARED, EFFECTIVE_DATE,
    EXECUTION_TIMESTAMP, EXPIRATION_DATE, LARGE_NOTIONAL_ELECTION, NON_STANDARDIZED_TERM,
    NOTIONAL_AMOUNT, NOTIONAL_CURRENCY, PACKAGE_INDICATOR, PACKAGE_PRICE, PACKAGE_SPREAD,
    PRICE_CURRENCY, PRICE_NOTATION, SETTLEMENT_LOCATION, SPREAD_CURRENCY, SPREAD_NOTATION,
};
use crate::forms::{asset_class_place, is_true};
use crate::ledger::Row;
use crate::message::Values;
use crate::price::shown;
use crate::sizes::{self, line, TERMS};

/// What a full message's elements and the caps put into a line from the
/// execution time up to the newline. The message has passed rules 5 to 12 and
/// 19. Offsets are the line's. A field without a value has spaces (7.3).
pub fn masked_terms(values: &Values, caps: &[u64; 5]) -> [u8; TERMS] {
    let mut terms = [b' '; TERMS];
    let mut put = |offset: usize, part: &[u8]| {
        let at = offset - line::TERMS;
        terms[at..at + part.len()].copy_from_slice(part);
    };
    put(line::EXECUTION_TIME, values.present(EXECUTION_TIMESTAMP));
    put(line::EFFECTIVE, values.present(EFFECTIVE_DATE));
    put(line::EXPIRATION, values.present(EXPIRATION_DATE));
    put(line::CLEARED, values.present(CLEARED));
    if is_not_cleared(values) {
        let shown = truth(values.present(NON_STANDARDIZED_TERM));
        put(line::NON_STANDARDIZED, shown);
    }
    put(line::BLOCK, truth(values.present(BLOCK_ELECTION)));
    put(line::LARGE, truth(values.present(LARGE_NOTIONAL_ELECTION)));
    put(line::PACKAGE, truth(values.present(PACKAGE_INDICATOR)));
    for (code, at) in [(PACKAGE_PRICE, line::PRICE), (PACKAGE_SPREAD, line::SPREAD)] {
        if let Some(v) = quoted(code, values) {
            let (field, _) = shown(v);
            put(at, &field);
        }
    }
    for (code, at) in [
        (PRICE_NOTATION, line::PRICE_NOTATION),
        (PRICE_CURRENCY, line::PRICE_CURRENCY),
        (SPREAD_NOTATION, line::SPREAD_NOTATION),
        (SPREAD_CURRENCY, line::SPREAD_CURRENCY),
    ] {
        if is_due(code, values) {
            put(at, values.present(code));
        }
    }
    let asset_class = values.present(ASSET_CLASS);
    put(line::CLASS, asset_class);
    let cap = asset_class_place(asset_class).map_or(0, |place| caps[place]);
    let (notional, plus) = masked_amount(values.present(NOTIONAL_AMOUNT), cap);
    put(line::NOTIONAL, &decimal::<{ sizes::NOTIONAL }>(notional));
    if plus {
        put(line::PLUS, b"+");
    }
    put(line::NOTIONAL_CURRENCY, values.present(NOTIONAL_CURRENCY));
    // It has no condition (3.5).
    put(line::LOCATION, values.present(SETTLEMENT_LOCATION));
    terms
}

/// Is a line due (7.6)? Not for PRTO, and not for a MODI whose masked terms
/// equal the stored ones of its swap, byte for byte.
pub fn is_line_due(action: Action, row: Option<Row>, terms: &[u8; TERMS]) -> bool {
    match action {
        Action::Prto => false,
        Action::Modi => row.map(Row::terms) != Some(*terms),
        _ => true,
    }
}

/// What leads a line, before the masked terms.
pub struct Lead<'a> {
    pub identifier: u64,
    /// The previous identifier of this swap; None for NEWT.
    pub previous: Option<u64>,
    pub action: &'a [u8],
    pub event: Option<&'a [u8]>,
    pub event_time: &'a [u8],
}

/// Writes a line to the front of the tape buffer (7.7), which is long enough
/// (rule 4).
pub fn write_line(tape: &mut [u8], lead: &Lead, terms: &[u8; TERMS]) {
    let line = &mut tape[..line::SIZE];
    line.fill(b' ');
    let mut put = |at: usize, part: &[u8]| line[at..at + part.len()].copy_from_slice(part);
    put(
        line::IDENTIFIER,
        &decimal::<{ sizes::IDENTIFIER }>(lead.identifier),
    );
    if let Some(previous) = lead.previous {
        put(line::PREVIOUS, &decimal::<{ sizes::IDENTIFIER }>(previous));
    }
    put(line::ACTION, lead.action);
    if let Some(event) = lead.event {
        put(line::EVENT, event);
    }
    put(line::EVENT_TIME, lead.event_time);
    put(line::TERMS, terms);
    put(line::NEWLINE, b"\n");
}

/// A truth as a line shows it (4.6).
fn truth(v: &[u8]) -> &'static [u8] {
    if is_true(v) {
        b"T"
    } else {
        b"F"
    }
}

/// Decimal, zero padded. Identifiers and amounts shown have no more digits
/// than their fields.
fn decimal<const N: usize>(mut number: u64) -> [u8; N] {
    let mut digits = [b'0'; N];
    for digit in digits.iter_mut().rev() {
        *digit = b'0' + (number % 10) as u8;
        number /= 10;
    }
    digits
}
