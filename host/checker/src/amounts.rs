//! Section 6: the masked notional.
//!
//! Amounts are held exactly, as a count of hundred-thousandths in a u128: an
//! amount has at most 25 digits, so the count is below 10 to the 30th, and a
//! u128 goes past 10 to the 38th.

use crate::forms::{is_notional, split_at_point};

/// Hundred-thousandths in one unit.
const PARTS: u128 = 100_000;

/// Amounts below the first number, all in units, are shown to the nearest
/// second number.
const BANDS: [(u64, u64); 8] = [
    (1_000, 5),
    (10_000, 100),
    (100_000, 1_000),
    (1_000_000, 10_000),
    (100_000_000, 1_000_000),
    (500_000_000, 10_000_000),
    (1_000_000_000, 50_000_000),
    (100_000_000_000, 1_000_000_000),
];

/// The step of amounts behind the last band with an end.
const LAST_STEP: u64 = 50_000_000_000;

/// Clause 6.2.
const LEAST_SHOWN: u128 = 5;

const SMALLEST_CAP: u64 = 1_000;
const LARGEST_CAP: u64 = 1_000_000_000_000_000;

/// Rule 2: a cap is in its range and its own rounded amount.
pub fn is_cap(cap: u64) -> bool {
    (SMALLEST_CAP..=LARGEST_CAP).contains(&cap)
        && rounded(u128::from(cap) * PARTS) == u128::from(cap)
}

/// The amount shown, in units, and whether a plus sign shows. None where the
/// bytes are not an amount.
pub fn masked(amount: &[u8], cap: u64) -> Option<(u64, bool)> {
    is_notional(amount).then(|| masked_amount(amount, cap))
}

/// The same for bytes already found to be an amount.
pub fn masked_amount(amount: &[u8], cap: u64) -> (u64, bool) {
    let exact = exact(amount);
    // The exact amount is compared with the cap, not the rounded one (6.4).
    if exact > u128::from(cap) * PARTS {
        return (cap, true);
    }
    // The amount is at most a u64, and so is its rounded amount: the greatest
    // u64 itself rounds down. A rounded amount is at most 10 to the 15th under
    // a cap that rule 2 lets pass.
    let shown = u64::try_from(rounded(exact)).unwrap_or(cap);
    (shown, false)
}

/// The hundred-thousandths in an amount of the form Num(25,5).
fn exact(amount: &[u8]) -> u128 {
    let (before, after) = split_at_point(amount);
    let mut digits = 0;
    for &b in before {
        digits = digits * 10 + u128::from(b - b'0');
    }
    let after = after.unwrap_or(&[]);
    for place in 0..5 {
        let digit = after.get(place).map_or(0, |b| b - b'0');
        digits = digits * 10 + u128::from(digit);
    }
    digits
}

/// The rounded amount, in units, of an exact amount in hundred-thousandths.
fn rounded(exact: u128) -> u128 {
    let step = u128::from(step(exact));
    // Halfway goes up. Half of a step is a whole count of hundred-thousandths.
    let steps = (exact + step * PARTS / 2) / (step * PARTS);
    (steps * step).max(LEAST_SHOWN)
}

/// What the band of an exact amount rounds to.
fn step(exact: u128) -> u64 {
    for (below, step) in BANDS {
        if exact < u128::from(below) * PARTS {
            return step;
        }
    }
    LAST_STEP
}
