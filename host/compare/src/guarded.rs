//! A buffer with guard bytes on each side, and an array of totals with guard
//! numbers.

use crate::layout::TOTALS;

/// Guard bytes on each side, at least.
const GUARD: usize = 64;
/// The buffer starts at each of so many alignments in turn.
const ALIGNMENTS: usize = 8;

/// A buffer that is lent out, and the guard bytes around it.
pub struct Guarded {
    bytes: Vec<u8>,
    start: usize,
    length: usize,
    pattern: u8,
}

impl Guarded {
    /// An empty buffer; the pattern tells its guard bytes from another's.
    pub fn new(pattern: u8) -> Self {
        let mut guarded = Guarded {
            bytes: Vec::new(),
            start: GUARD,
            length: 0,
            pattern,
        };
        guarded.set(&[]);
        guarded
    }

    /// Gives the buffer new contents, the next alignment and fresh guards.
    pub fn set(&mut self, contents: &[u8]) {
        self.start = GUARD + (self.start + 1 - GUARD) % ALIGNMENTS;
        self.length = contents.len();
        self.bytes.resize(self.start + self.length + GUARD, 0);
        let end = self.start + self.length;
        self.bytes[self.start..end].copy_from_slice(contents);
        for at in (0..self.start).chain(end..end + GUARD) {
            self.bytes[at] = self.guard(at);
        }
    }

    /// The buffer without its guards.
    pub fn bytes(&self) -> &[u8] {
        &self.bytes[self.start..self.start + self.length]
    }

    /// The buffer without its guards, to be lent.
    pub fn bytes_mut(&mut self) -> &mut [u8] {
        &mut self.bytes[self.start..self.start + self.length]
    }

    /// Whether no guard byte has changed.
    pub fn is_whole(&self) -> bool {
        let end = self.start + self.length;
        (0..self.start)
            .chain(end..end + GUARD)
            .all(|at| self.bytes[at] == self.guard(at))
    }

    fn guard(&self, at: usize) -> u8 {
        self.pattern ^ (at as u8)
    }
}

/// Guard numbers on each side of an array of totals.
const GUARD_NUMBERS: usize = 16;

/// An array of totals that is lent out, and the guard numbers around it.
pub struct GuardedTotals {
    numbers: [u32; GUARD_NUMBERS + TOTALS + GUARD_NUMBERS],
    guard: u32,
}

impl GuardedTotals {
    /// An array with old numbers; the pattern tells them and the guards from
    /// another's.
    pub fn new(pattern: u8) -> Self {
        let guard = u32::from_le_bytes([pattern; 4]);
        GuardedTotals {
            numbers: [guard; GUARD_NUMBERS + TOTALS + GUARD_NUMBERS],
            guard,
        }
    }

    /// Puts the old numbers back.
    pub fn reset(&mut self) {
        self.numbers.fill(self.guard);
    }

    /// The array without its guards.
    pub fn totals(&self) -> [u32; TOTALS] {
        let totals = self.numbers[GUARD_NUMBERS..].first_chunk();
        *totals.expect("the array stands between its guards")
    }

    /// The array without its guards, to be lent.
    pub fn totals_mut(&mut self) -> &mut [u32; TOTALS] {
        let totals = self.numbers[GUARD_NUMBERS..].first_chunk_mut();
        totals.expect("the array stands between its guards")
    }

    /// Whether no guard number has changed.
    pub fn is_whole(&self) -> bool {
        let (before, rest) = self.numbers.split_at(GUARD_NUMBERS);
        let mut guards = before.iter().chain(&rest[TOTALS..]);
        guards.all(|&number| number == self.guard)
    }
}

#[cfg(test)]
mod tests {
    use super::{Guarded, GuardedTotals, ALIGNMENTS, GUARD, GUARD_NUMBERS};
    use crate::layout::TOTALS;

    #[test]
    fn a_write_beside_the_buffer_is_seen() {
        for _ in 0..ALIGNMENTS {
            let mut guarded = Guarded::new(0x5a);
            guarded.set(b"contents");
            assert!(guarded.is_whole());
            guarded.bytes_mut().fill(0xff);
            assert!(guarded.is_whole());
            let (start, end) = (guarded.start, guarded.start + 8);
            for at in [start - GUARD, start - 1, end, end + GUARD - 1] {
                guarded.bytes[at] ^= 1;
                assert!(!guarded.is_whole());
                guarded.bytes[at] ^= 1;
            }
        }
    }

    #[test]
    fn a_write_beside_the_totals_is_seen() {
        let mut guarded = GuardedTotals::new(0x5a);
        assert_eq!(guarded.totals(), [0x5a5a_5a5a; TOTALS]);
        *guarded.totals_mut() = [1, 2, 3, 4];
        assert_eq!(guarded.totals(), [1, 2, 3, 4]);
        assert!(guarded.is_whole());
        let end = GUARD_NUMBERS + TOTALS;
        for at in [0, GUARD_NUMBERS - 1, end, end + GUARD_NUMBERS - 1] {
            guarded.numbers[at] ^= 1;
            assert!(!guarded.is_whole());
            guarded.numbers[at] ^= 1;
        }
        guarded.reset();
        assert_eq!(guarded.totals(), [0x5a5a_5a5a; TOTALS]);
    }
}
