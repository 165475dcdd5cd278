//! The lists of the specification: elements, actions and events, statuses,
//! values that are one of a few, and the bands of the masked notional.

use sdr::{CLOSED, ERRORED, LIVE, PORTED, UNKNOWN};

// Elements.

pub const UTI: u8 = 1;
pub const ACTION_TYPE: u8 = 2;
pub const EVENT_TYPE: u8 = 3;
pub const EVENT_TIMESTAMP: u8 = 4;
pub const REPORTING_TIMESTAMP: u8 = 5;
pub const EXECUTION_TIMESTAMP: u8 = 6;
pub const EFFECTIVE_DATE: u8 = 7;
pub const EXPIRATION_DATE: u8 = 8;
pub const SETTLEMENT_DATE: u8 = 9;
pub const CLEARED: u8 = 10;
pub const NON_STANDARDIZED_TERM: u8 = 11;
pub const BLOCK_ELECTION: u8 = 12;
pub const LARGE_NOTIONAL_ELECTION: u8 = 13;
pub const ALLOCATION: u8 = 14;
pub const PACKAGE_INDICATOR: u8 = 15;
pub const PACKAGE_IDENTIFIER: u8 = 16;
pub const PACKAGE_PRICE: u8 = 17;
pub const PRICE_NOTATION: u8 = 18;
pub const PRICE_CURRENCY: u8 = 19;
pub const NOTIONAL_AMOUNT: u8 = 20;
pub const NOTIONAL_CURRENCY: u8 = 21;
pub const SETTLEMENT_LOCATION: u8 = 22;
pub const COUNTERPARTY_1: u8 = 23;
pub const COUNTERPARTY_2: u8 = 24;
pub const ASSET_CLASS: u8 = 25;
pub const PACKAGE_SPREAD: u8 = 26;
pub const SPREAD_NOTATION: u8 = 27;
pub const SPREAD_CURRENCY: u8 = 28;

/// The last element code.
pub const LAST_CODE: u8 = SPREAD_CURRENCY;
/// The last code that a message takes whose action is not full.
const LAST_SHORT: u8 = REPORTING_TIMESTAMP;

/// The codes needed by all messages, without the action, which has a rule of
/// its own.
pub const NEEDED_BY_ALL: [u8; 3] = [UTI, EVENT_TIMESTAMP, REPORTING_TIMESTAMP];
/// The further codes needed by full messages.
pub const NEEDED_BY_FULL: [u8; 14] = [
    EXECUTION_TIMESTAMP,
    EFFECTIVE_DATE,
    EXPIRATION_DATE,
    SETTLEMENT_DATE,
    CLEARED,
    BLOCK_ELECTION,
    LARGE_NOTIONAL_ELECTION,
    ALLOCATION,
    PACKAGE_INDICATOR,
    NOTIONAL_AMOUNT,
    NOTIONAL_CURRENCY,
    COUNTERPARTY_1,
    COUNTERPARTY_2,
    ASSET_CLASS,
];
/// The conditional codes.
pub const CONDITIONAL: [u8; 7] = [
    NON_STANDARDIZED_TERM,
    PACKAGE_IDENTIFIER,
    PACKAGE_PRICE,
    PRICE_NOTATION,
    PRICE_CURRENCY,
    SPREAD_NOTATION,
    SPREAD_CURRENCY,
];
/// The codes that no message needs.
pub const OPTIONAL: [u8; 2] = [SETTLEMENT_LOCATION, PACKAGE_SPREAD];
/// The codes whose value is a truth.
pub const TRUTH_CODES: [u8; 4] = [
    NON_STANDARDIZED_TERM,
    BLOCK_ELECTION,
    LARGE_NOTIONAL_ELECTION,
    PACKAGE_INDICATOR,
];

/// The codes whose value is a currency.
pub const CURRENCY_CODES: [u8; 3] = [PRICE_CURRENCY, NOTIONAL_CURRENCY, SPREAD_CURRENCY];

/// The element codes, rising.
pub fn codes() -> impl Iterator<Item = u8> {
    UTI..=LAST_CODE
}

/// Whether an element has this code.
pub fn is_code(code: u8) -> bool {
    codes().any(|one| one == code)
}

/// The codes that can break their form: all but the action's, which has a rule
/// of its own.
pub fn codes_with_a_form() -> impl Iterator<Item = u8> {
    codes().filter(|&code| code != ACTION_TYPE)
}

/// Whether a message of an action takes a code.
pub fn takes(action: &str, code: u8) -> bool {
    FULL_ACTIONS.contains(&action) || code <= LAST_SHORT
}

/// The codes that only full messages take.
pub fn codes_of_full_messages() -> impl Iterator<Item = u8> {
    codes().filter(|&code| code > LAST_SHORT)
}

// Actions, events and statuses.

pub const ACTIONS: [&str; 7] = ["NEWT", "MODI", "CORR", "TERM", "EROR", "REVI", "PRTO"];
/// The actions whose messages carry the terms of the swap.
pub const FULL_ACTIONS: [&str; 4] = ["NEWT", "MODI", "CORR", "REVI"];
/// The actions that repeat the stored execution time.
pub const REPEATING_ACTIONS: [&str; 2] = ["MODI", "REVI"];
/// The actions that write no line.
pub const ACTIONS_WITHOUT_LINE: [&str; 1] = ["PRTO"];
/// The actions that write no line where they repeat the stored masked terms.
pub const ACTIONS_WITH_NEW_TERMS: [&str; 1] = ["MODI"];

/// The events, in the order of the matrix's columns.
pub const EVENTS: [&str; 12] = [
    "TRAD", "NOVA", "COMP", "ETRM", "CLRG", "EXER", "ALOC", "CLAL", "CREV", "PTNG", "CORP", "UPDT",
];

/// The matrix: the events that go with an action. One that has none here
/// carries no event; each other carries one.
pub const MATRIX: [(&str, &[&str]); 7] = [
    (
        "NEWT",
        &[
            "TRAD", "NOVA", "COMP", "CLRG", "EXER", "ALOC", "CLAL", "PTNG", "CORP", "UPDT",
        ],
    ),
    (
        "MODI",
        &[
            "TRAD", "NOVA", "COMP", "EXER", "ALOC", "CREV", "CORP", "UPDT",
        ],
    ),
    ("CORR", &[]),
    (
        "TERM",
        &[
            "NOVA", "COMP", "ETRM", "CLRG", "EXER", "ALOC", "CLAL", "CREV", "CORP",
        ],
    ),
    ("EROR", &[]),
    ("REVI", &[]),
    ("PRTO", &["PTNG"]),
];

/// The statuses of a swap that has a row.
pub const ROW_STATUSES: [u8; 4] = [LIVE, CLOSED, ERRORED, PORTED];

/// The steps: an action, a status that admits it, and the status after it.
pub const STEPS: [(&str, u8, u8); 10] = [
    ("NEWT", UNKNOWN, LIVE),
    ("MODI", LIVE, LIVE),
    ("CORR", LIVE, LIVE),
    ("CORR", CLOSED, CLOSED),
    ("TERM", LIVE, CLOSED),
    ("EROR", LIVE, ERRORED),
    ("EROR", CLOSED, ERRORED),
    ("REVI", ERRORED, LIVE),
    ("REVI", CLOSED, LIVE),
    ("PRTO", LIVE, PORTED),
];

/// The statuses of a swap, known or not.
pub fn statuses() -> impl Iterator<Item = u8> {
    [UNKNOWN].into_iter().chain(ROW_STATUSES)
}

// Values.

/// The truths.
pub const TRUTHS: [&str; 4] = [TRUE[0], FALSE[0], TRUE[1], FALSE[1]];
/// The truths that say true.
pub const TRUE: [&str; 2] = ["True", "true"];
/// The truths that say false.
pub const FALSE: [&str; 2] = ["False", "false"];
pub const CLEARED_VALUES: [&str; 3] = ["Y", NOT_CLEARED, "I"];
pub const NOT_CLEARED: &str = "N";
pub const ALLOCATIONS: [&str; 3] = ["POST", "PREA", "UNAL"];
pub const MONETARY: &str = "1";
pub const DECIMAL: &str = "3";
pub const BASIS_POINTS: &str = "4";
pub const PRICE_NOTATIONS: [&str; 2] = [MONETARY, DECIMAL];
pub const SPREAD_NOTATIONS: [&str; 3] = [MONETARY, DECIMAL, BASIS_POINTS];
/// The asset classes, in the order of the caps.
pub const CLASSES: [&str; 5] = ["CR", "IR", "FX", "EQ", "CO"];

// Quotes.

/// What a package is quoted by: the code of its number, those of notation and
/// currency, and the notations that there are.
#[derive(Clone, Copy, Debug, PartialEq, Eq)]
pub struct Quote {
    pub number: u8,
    pub notation: u8,
    pub currency: u8,
    pub notations: &'static [&'static str],
}

pub const PRICE: Quote = Quote {
    number: PACKAGE_PRICE,
    notation: PRICE_NOTATION,
    currency: PRICE_CURRENCY,
    notations: &PRICE_NOTATIONS,
};
pub const SPREAD: Quote = Quote {
    number: PACKAGE_SPREAD,
    notation: SPREAD_NOTATION,
    currency: SPREAD_CURRENCY,
    notations: &SPREAD_NOTATIONS,
};
pub const QUOTES: [Quote; 2] = [PRICE, SPREAD];

// The masked notional.

/// The bands: amounts below the first number are rounded to the second.
pub const BANDS: [(u64, u64); 8] = [
    (1_000, 5),
    (10_000, 100),
    (100_000, 1_000),
    (1_000_000, 10_000),
    (100_000_000, 1_000_000),
    (500_000_000, 10_000_000),
    (1_000_000_000, 50_000_000),
    (100_000_000_000, 1_000_000_000),
];
/// Larger amounts are rounded to this.
pub const LARGEST_STEP: u64 = 50_000_000_000;
/// The lowest amount shown.
pub const LEAST_SHOWN: u64 = 5;

/// The lists agree with each other.
#[cfg(test)]
mod tests {
    use super::*;

    #[test]
    fn every_code_is_needed_somehow_once() {
        let mut found = [NEEDED_BY_ALL.as_slice(), &NEEDED_BY_FULL, &CONDITIONAL].concat();
        found.extend([ACTION_TYPE, EVENT_TYPE]);
        found.extend(OPTIONAL);
        found.sort();
        assert!(codes().eq(found));
        assert!(is_code(1) && is_code(LAST_CODE) && !is_code(0) && !is_code(LAST_CODE + 1));
    }

    #[test]
    fn short_messages_take_the_codes_up_to_5() {
        for code in codes() {
            assert_eq!(takes("TERM", code), code <= 5, "{code}");
            assert!(takes("CORR", code), "{code}");
        }
        assert!(codes_of_full_messages().eq(6..=LAST_CODE));
    }

    #[test]
    fn matrix_and_steps_are_about_the_actions_and_events() {
        assert_eq!(MATRIX.map(|(action, _)| action), ACTIONS);
        let events = MATRIX.iter().flat_map(|(_, events)| events.iter());
        assert!(events.clone().all(|event| EVENTS.contains(event)));
        for event in EVENTS {
            assert!(events.clone().any(|other| *other == event), "{event}");
        }
        for action in ACTIONS {
            assert!(STEPS.iter().any(|step| step.0 == action), "{action}");
        }
        assert!(STEPS.iter().all(|step| ACTIONS.contains(&step.0)));
    }
}
