//! What a line shows: the masked notional, price and spread, the masked terms.

use crate::layout::*;
use crate::lists::*;
use crate::matrix::can_write_line;
use crate::message::Message;
use std::ops::Range;

/// One unit of currency, counted in the last place that a notional can have.
pub const UNIT: u128 = 10u128.pow(NOTIONAL_NUM.after_point as u32);

/// A sound amount, counted in units of its last possible place.
pub fn exact(amount: &[u8]) -> u128 {
    let mut parts = amount.splitn(2, |&byte| byte == b'.');
    let mut digits = parts.next().unwrap_or_default().to_vec();
    let mut after = parts.next().unwrap_or_default().to_vec();
    after.resize(NOTIONAL_NUM.after_point, b'0');
    digits.append(&mut after);
    digits
        .iter()
        .fold(0, |number, digit| 10 * number + u128::from(digit - b'0'))
}

/// What an exact amount is rounded to.
fn step(exact: u128) -> u128 {
    let band = BANDS.iter().find(|band| exact < u128::from(band.0) * UNIT);
    band.map_or(LARGEST_STEP, |band| band.1).into()
}

/// The rounded amount, in units of currency.
pub fn rounded(exact: u128) -> u128 {
    let step = step(exact);
    let steps = (2 * exact + step * UNIT) / (2 * step * UNIT);
    (steps * step).max(LEAST_SHOWN.into())
}

/// The amount shown and whether a plus sign follows.
pub fn masked(amount: &[u8], cap: u64) -> (u64, bool) {
    let exact = exact(amount);
    if exact > u128::from(cap) * UNIT {
        return (cap, true);
    }
    let shown = u64::try_from(rounded(exact)).expect("an amount up to a cap");
    (shown, false)
}

/// A sound price or spread as the line shows it.
pub fn shown_price(price: &[u8]) -> Vec<u8> {
    let text = std::str::from_utf8(price).expect("a price is ASCII");
    let (minus, number) = match text.strip_prefix('-') {
        Some(number) => ("-", number),
        None => ("", text),
    };
    let (whole, after) = number.split_once('.').unwrap_or((number, ""));
    let whole = whole.trim_start_matches('0');
    let after = after.trim_end_matches('0');
    if whole.is_empty() && after.is_empty() {
        return b"0".to_vec();
    }
    let whole = if whole.is_empty() { "0" } else { whole };
    let point = if after.is_empty() { "" } else { "." };
    format!("{minus}{whole}{point}{after}").into_bytes()
}

/// Whether a truth says true.
pub fn is_true(value: &[u8]) -> bool {
    TRUE.iter().any(|word| word.as_bytes() == value)
}

/// Whether the message is one of a package.
pub fn is_package(message: &Message) -> bool {
    is_true(message.value(PACKAGE_INDICATOR))
}

/// Whether an element has this value.
pub fn says(message: &Message, code: u8, value: &str) -> bool {
    message.value(code) == value.as_bytes()
}

/// Whether the message is one of a package that is quoted so.
pub fn is_quoted_by(message: &Message, quote: &Quote) -> bool {
    is_package(message) && message.has(quote.number)
}

/// Whether the element counts where it is there; else it is left out.
pub fn applies(message: &Message, code: u8) -> bool {
    let quoted = |quote| is_quoted_by(message, quote);
    match code {
        NON_STANDARDIZED_TERM => says(message, CLEARED, NOT_CLEARED),
        PACKAGE_IDENTIFIER | PACKAGE_PRICE | PACKAGE_SPREAD => is_package(message),
        PRICE_NOTATION => quoted(&PRICE),
        PRICE_CURRENCY => quoted(&PRICE) && says(message, PRICE_NOTATION, MONETARY),
        SPREAD_NOTATION => quoted(&SPREAD),
        SPREAD_CURRENCY => quoted(&SPREAD) && says(message, SPREAD_NOTATION, MONETARY),
        _ => true,
    }
}

/// The cap of the message's asset class.
pub fn cap_of(message: &Message, caps: &Caps) -> u64 {
    let of_message = |class: &&str| says(message, ASSET_CLASS, class);
    let place = CLASSES.iter().position(of_message);
    caps[place.expect("a sound asset class")]
}

/// The masked terms of a sound full message.
pub fn terms_of(message: &Message, caps: &Caps) -> [u8; TERMS_SIZE] {
    let (amount, plus) = masked(message.value(NOTIONAL_AMOUNT), cap_of(message, caps));
    let mut line = [b' '; LINE_SIZE];
    let mut put = |field: Range<usize>, text: &[u8]| {
        line[field][..text.len()].copy_from_slice(text);
    };
    put(EXECUTION_IN_LINE, message.value(EXECUTION_TIMESTAMP));
    put(EFFECTIVE_IN_LINE, message.value(EFFECTIVE_DATE));
    put(EXPIRATION_IN_LINE, message.value(EXPIRATION_DATE));
    put(CLEARED_IN_LINE, message.value(CLEARED));
    put(
        NON_STANDARDIZED_IN_LINE,
        shown_truth(message, NON_STANDARDIZED_TERM),
    );
    put(BLOCK_IN_LINE, shown_truth(message, BLOCK_ELECTION));
    put(LARGE_IN_LINE, shown_truth(message, LARGE_NOTIONAL_ELECTION));
    put(PACKAGE_IN_LINE, shown_truth(message, PACKAGE_INDICATOR));
    put(PRICE_IN_LINE, &shown_number(message, PACKAGE_PRICE));
    put(PRICE_NOTATION_IN_LINE, shown(message, PRICE_NOTATION));
    put(PRICE_CURRENCY_IN_LINE, shown(message, PRICE_CURRENCY));
    put(CLASS_IN_LINE, message.value(ASSET_CLASS));
    put(NOTIONAL_IN_LINE, &digits(amount, NOTIONAL_SIZE));
    put(PLUS_IN_LINE, if plus { b"+" } else { b"" });
    put(NOTIONAL_CURRENCY_IN_LINE, message.value(NOTIONAL_CURRENCY));
    put(LOCATION_IN_LINE, message.value(SETTLEMENT_LOCATION));
    put(SPREAD_IN_LINE, &shown_number(message, PACKAGE_SPREAD));
    put(SPREAD_NOTATION_IN_LINE, shown(message, SPREAD_NOTATION));
    put(SPREAD_CURRENCY_IN_LINE, shown(message, SPREAD_CURRENCY));
    line[TERMS_IN_LINE].try_into().expect("the terms' size")
}

/// Whether a line is due for a message about a swap with these stored terms, or
/// without any: for every one but a PRTO and a MODI that repeats them.
pub fn line_is_due(message: &Message, stored: Option<&[u8; TERMS_SIZE]>, caps: &Caps) -> bool {
    let action = message.text(ACTION_TYPE);
    if ACTIONS_WITH_NEW_TERMS.contains(&action.as_str()) {
        return stored != Some(&terms_of(message, caps));
    }
    can_write_line(&action)
}

/// A number in so many digits, zero padded.
fn digits(number: u64, size: usize) -> Vec<u8> {
    format!("{number:0size$}").into_bytes()
}

/// The value where it counts, else nothing.
fn shown(message: &Message, code: u8) -> &[u8] {
    if applies(message, code) {
        message.value(code)
    } else {
        b""
    }
}

fn shown_truth(message: &Message, code: u8) -> &'static [u8] {
    match shown(message, code) {
        b"" => b"",
        value if is_true(value) => b"T",
        _ => b"F",
    }
}

/// A price or a spread as the line shows it, or nothing.
fn shown_number(message: &Message, code: u8) -> Vec<u8> {
    match shown(message, code) {
        b"" => Vec::new(),
        number => shown_price(number),
    }
}

/// The line of a message; no previous identifier is blank.
pub fn line_of(
    message: &Message,
    identifier: u64,
    previous: Option<u64>,
    terms: &[u8; TERMS_SIZE],
) -> [u8; LINE_SIZE] {
    let mut line = [b' '; LINE_SIZE];
    line[IDENTIFIER_IN_LINE].copy_from_slice(&digits(identifier, IDENTIFIER_DIGITS));
    if let Some(previous) = previous {
        line[PREVIOUS_IN_LINE].copy_from_slice(&digits(previous, IDENTIFIER_DIGITS));
    }
    line[ACTION_IN_LINE].copy_from_slice(message.value(ACTION_TYPE));
    if let Some(event) = message.get(EVENT_TYPE) {
        line[EVENT_IN_LINE].copy_from_slice(event);
    }
    line[EVENT_TIME_IN_LINE].copy_from_slice(message.value(EVENT_TIMESTAMP));
    line[TERMS_IN_LINE].copy_from_slice(terms);
    line[NEWLINE_IN_LINE].copy_from_slice(b"\n");
    line
}
