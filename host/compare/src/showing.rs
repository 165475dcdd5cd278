//! Messages that show given masked terms, with any values where nothing is
//! shown.

use crate::layout::*;
use crate::lists::*;
use crate::message::Message;
use crate::random::Random;
use crate::sound::{self, most_digits};
use crate::terms::{applies, cap_of, is_package, is_quoted_by, is_true};
use crate::values;
use std::ops::Range;

/// The fields that show a value as it is sent or in another spelling.
const VALUES: [(u8, Range<usize>); 13] = [
    (EXECUTION_TIMESTAMP, EXECUTION_IN_LINE),
    (EFFECTIVE_DATE, EFFECTIVE_IN_LINE),
    (EXPIRATION_DATE, EXPIRATION_IN_LINE),
    (CLEARED, CLEARED_IN_LINE),
    (PACKAGE_PRICE, PRICE_IN_LINE),
    (PRICE_NOTATION, PRICE_NOTATION_IN_LINE),
    (PRICE_CURRENCY, PRICE_CURRENCY_IN_LINE),
    (NOTIONAL_CURRENCY, NOTIONAL_CURRENCY_IN_LINE),
    (SETTLEMENT_LOCATION, LOCATION_IN_LINE),
    (ASSET_CLASS, CLASS_IN_LINE),
    (PACKAGE_SPREAD, SPREAD_IN_LINE),
    (SPREAD_NOTATION, SPREAD_NOTATION_IN_LINE),
    (SPREAD_CURRENCY, SPREAD_CURRENCY_IN_LINE),
];

/// The fields that show a truth.
const SHOWN_TRUTHS: [(u8, Range<usize>); 4] = [
    (NON_STANDARDIZED_TERM, NON_STANDARDIZED_IN_LINE),
    (BLOCK_ELECTION, BLOCK_IN_LINE),
    (LARGE_NOTIONAL_ELECTION, LARGE_IN_LINE),
    (PACKAGE_INDICATOR, PACKAGE_IN_LINE),
];

/// A sound full message of an action about a swap that shows these masked
/// terms, which a sound message had under the caps.
pub fn showing(
    random: &mut Random,
    action: &str,
    uti: &[u8],
    terms: &[u8; TERMS_SIZE],
    caps: &Caps,
) -> Message {
    let mut message = sound::without_terms(random, action, uti);
    for (code, field) in VALUES {
        let value = part(terms, field).trim_ascii_end();
        if !value.is_empty() {
            message.set(code, value);
        }
    }
    for (code, field) in SHOWN_TRUTHS {
        match part(terms, field) {
            b"T" => _ = message.set(code, TRUE[0]),
            b"F" => _ = message.set(code, FALSE[0]),
            _ => {}
        }
    }
    message.set(NOTIONAL_AMOUNT, amount_of(terms));
    disguised(random, &message, caps)
}

/// The bytes of the terms that stand in a field of the line.
fn part(terms: &[u8; TERMS_SIZE], field: Range<usize>) -> &[u8] {
    let start = TERMS_IN_LINE.start;
    &terms[field.start - start..field.end - start]
}

/// An amount that is shown so: the shown one, or the least above the cap.
fn amount_of(terms: &[u8; TERMS_SIZE]) -> Vec<u8> {
    let shown = part(terms, NOTIONAL_IN_LINE);
    match part(terms, PLUS_IN_LINE) {
        b"+" => [shown, b".00001"].concat(),
        _ => shown.to_vec(),
    }
}

/// The message with other values for all that is not public.
pub fn disguised(random: &mut Random, message: &Message, caps: &Caps) -> Message {
    let mut other = message.clone();
    if !message.has(EXECUTION_TIMESTAMP) {
        other.set(REPORTING_TIMESTAMP, values::time(random));
        return other;
    }
    sound::set_execution(random, &mut other, message.value(EXECUTION_TIMESTAMP));
    let expiration = message.value(EXPIRATION_DATE);
    other.set(SETTLEMENT_DATE, values::date_from(random, expiration));
    other.set(ALLOCATION, random.pick(&ALLOCATIONS));
    other.set(COUNTERPARTY_1, values::lei(random));
    other.set(COUNTERPARTY_2, values::lei(random));
    if is_package(message) || message.has(PACKAGE_IDENTIFIER) {
        other.set(PACKAGE_IDENTIFIER, values::package_identifier(random));
    }
    for code in TRUTH_CODES {
        spell_truth_otherwise(random, &mut other, code);
    }
    for quote in QUOTES {
        spell_quote_otherwise(random, &mut other, &quote);
    }
    let (amount, cap) = (message.value(NOTIONAL_AMOUNT), cap_of(message, caps));
    other.set(
        NOTIONAL_AMOUNT,
        values::amount_masked_alike(random, amount, cap),
    );
    change_left_out(random, &mut other);
    other
}

fn spell_truth_otherwise(random: &mut Random, message: &mut Message, code: u8) {
    if message.has(code) {
        let spellings = if is_true(message.value(code)) {
            TRUE
        } else {
            FALSE
        };
        message.set(code, random.pick(&spellings));
    }
}

fn spell_quote_otherwise(random: &mut Random, message: &mut Message, quote: &Quote) {
    if is_quoted_by(message, quote) {
        let most = most_digits(&message.text(quote.notation));
        let number = values::price_shown_alike(random, message.value(quote.number), most);
        message.set(quote.number, number);
    }
}

/// Elements that are left out may be there or not, with any sound value.
fn change_left_out(random: &mut Random, message: &mut Message) {
    for code in codes() {
        if applies(message, code) {
            continue;
        }
        match (random.below(3), code) {
            (0, _) => _ = message.remove(code),
            (1, 11) => _ = message.set(11, random.pick(&TRUTHS)),
            (1, 17 | 26) => _ = message.set(code, values::price(random, PRICE_NUM)),
            (1, 18) => _ = message.set(18, random.pick(&PRICE_NOTATIONS)),
            (1, 27) => _ = message.set(27, random.pick(&SPREAD_NOTATIONS)),
            (1, 19 | 28) => _ = message.set(code, values::currency(random)),
            _ => {}
        }
    }
}

#[cfg(test)]
mod tests {
    use super::*;
    use crate::sound::uti_of;
    use crate::terms::terms_of;

    #[test]
    fn the_terms_are_those_asked_for() {
        let mut random = Random::for_test(302);
        let uti = uti_of(1);
        let mut differing = [0; LAST_CODE as usize + 1];
        for _ in 0..4_000 {
            let caps = values::caps(&mut random);
            let first = sound::message(&mut random, "NEWT", uti.as_bytes());
            let terms = terms_of(&first, &caps);
            let second = showing(&mut random, "MODI", uti.as_bytes(), &terms, &caps);
            assert_eq!(terms_of(&second, &caps), terms);
            for code in codes().filter(|&code| first.get(code) != second.get(code)) {
                differing[usize::from(code)] += 1;
            }
        }
        // What is shown as it is sent does not differ, the rest often does.
        for code in codes() {
            let alike = [1, 6, 7, 8, 10, 21, 22, 25].contains(&code);
            let often = differing[usize::from(code)] > 200;
            assert_eq!(often, !alike, "{code}");
            assert!(!alike || differing[usize::from(code)] == 0, "{code}");
        }
    }
}
