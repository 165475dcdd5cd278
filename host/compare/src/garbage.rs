//! Bytes that no host would send.

use crate::layout::{totals_in, COUNT_SIZE, ENTRY_SIZE, TOTALS, TOTALS_IN_HEADER};
use crate::lists::LAST_CODE;
use crate::random::Random;

/// Changes some bytes at random.
pub fn flip(random: &mut Random, bytes: &mut [u8]) {
    if bytes.is_empty() {
        return;
    }
    for _ in 0..random.between(1, 3) {
        let at = random.below(bytes.len());
        bytes[at] = match random.below(4) {
            0 => bytes[at] ^ (1 << random.below(8)),
            1 => bytes[at].wrapping_add(1),
            2 => bytes[at].wrapping_sub(1),
            _ => random.bits() as u8,
        };
    }
}

/// Moves some of one total of a ledger to another. The sum stays.
pub fn shift_totals(random: &mut Random, ledger: &mut [u8]) {
    let mut totals = totals_in(ledger);
    let (from, to) = (random.below(TOTALS), random.below(TOTALS));
    let moved = random.between(0, totals[from] as usize) as u32;
    totals[from] -= moved;
    totals[to] += moved;
    let bytes = totals.map(u32::to_le_bytes);
    ledger[TOTALS_IN_HEADER].copy_from_slice(bytes.as_flattened());
}

/// Random bytes, most often few.
pub fn noise(random: &mut Random, longest: usize) -> Vec<u8> {
    let length = random.between(0, longest);
    let length = if random.once_in(2) {
        length % 40
    } else {
        length
    };
    random.bytes(length)
}

/// A message with a right count and wild codes and offsets.
pub fn wild_message(random: &mut Random) -> Vec<u8> {
    let count = random.between(0, usize::from(LAST_CODE) + 1);
    let mut bytes = (count as u16).to_le_bytes().to_vec();
    let mut code = 0;
    let mut offset = COUNT_SIZE + ENTRY_SIZE * count;
    for _ in 0..count {
        code += rise(random, 2);
        bytes.extend((code as u16).to_le_bytes());
        bytes.extend((wild(random, offset) as u16).to_le_bytes());
        offset += rise(random, 25);
    }
    let rest = offset.saturating_sub(bytes.len()) + random.below(3);
    bytes.extend(random.bytes(rest));
    bytes
}

/// A number from 1 up to the highest, seldom 0.
fn rise(random: &mut Random, highest: usize) -> usize {
    if random.once_in(30) {
        return 0;
    }
    random.between(1, highest)
}

/// An offset, seldom another number instead.
fn wild(random: &mut Random, offset: usize) -> usize {
    match random.below(60) {
        0 => random.bits() as usize % 65_536,
        1 => offset + 1,
        2 => offset - 1,
        _ => offset,
    }
}
