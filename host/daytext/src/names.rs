//! Verdicts, elements and actions in words. Verdicts and elements are those
//! of include/sdr.h; a test compares them.

/// The words for each verdict, from 0 on.
pub const VERDICTS: [&str; 20] = [
    "accepted",
    "ledger buffer too short",
    "cap out of bounds or not a rounded amount",
    "ledger not opened, damaged or of another length",
    "tape buffer too short",
    "message layout wrong",
    "action missing or unknown",
    "element missing",
    "element not taken by this action",
    "value breaks its form",
    "event does not go with action",
    "conditional element missing",
    "price or spread too long for its notation",
    "dates or times out of order",
    "row of the swap or total of its status damaged",
    "action not admitted by the swap's status",
    "execution time differs from the swap's",
    "ledger full",
    "identifiers spent",
    "package with both price and spread",
];

/// The name of each element, from code 1 on.
pub const ELEMENTS: [&str; 28] = [
    "UTI",
    "action type",
    "event type",
    "event timestamp",
    "reporting timestamp",
    "execution timestamp",
    "effective date",
    "expiration date",
    "final contractual settlement date",
    "cleared",
    "non-standardized term",
    "block election",
    "large notional election",
    "allocation",
    "package indicator",
    "package identifier",
    "package price",
    "price notation",
    "price currency",
    "notional amount",
    "notional currency",
    "settlement location",
    "counterparty 1",
    "counterparty 2",
    "asset class",
    "package spread",
    "spread notation",
    "spread currency",
];

/// Each action and what it says of the swap.
pub const ACTIONS: [(&str, &str); 7] = [
    ("NEWT", "a new swap"),
    ("MODI", "a change of terms"),
    ("CORR", "a correction"),
    ("TERM", "terminated"),
    ("EROR", "entered in error"),
    ("REVI", "brought back"),
    ("PRTO", "moved to another repository"),
];

/// The codes of the elements that `explain` looks for.
pub const UTI: u16 = 1;
pub const ACTION_TYPE: u16 = 2;
pub const EVENT_TYPE: u16 = 3;

/// The verdict on a message whose layout is wrong.
pub const LAYOUT_WRONG: u64 = 5;

/// The longest message; a longer one is passed over.
pub const LONGEST_MESSAGE: usize = 2048;
/// The same in words.
pub const LONGEST_IN_WORDS: &str = "2,048 bytes";

/// Identifiers of tape lines stay below this.
pub const IDENTIFIER_LIMIT: u64 = 1_000_000_000_000;

/// The words for a verdict, if there is such a verdict.
pub fn verdict(number: u64) -> Option<&'static str> {
    VERDICTS.get(usize::try_from(number).ok()?).copied()
}

/// The name of an element, if there is such an element.
pub fn element(code: u64) -> Option<&'static str> {
    let place = usize::try_from(code).ok()?.checked_sub(1)?;
    ELEMENTS.get(place).copied()
}

/// What an action says of the swap, if it is one of the seven.
pub fn action(code: &[u8]) -> Option<&'static str> {
    let found = ACTIONS.iter().find(|(name, _)| name.as_bytes() == code);
    found.map(|&(_, meaning)| meaning)
}
