//! A safe wrapper around the C interface of the swap data validation core.
//!
//! The core has four operations: [`open`] a ledger over a lent buffer,
//! [`submit`] one message, ask the [`status`] of one swap, ask for the
//! [`totals`] of the statuses. All four work on byte slices that stay the
//! caller's. Empty slices are allowed and get the verdict of a buffer that is
//! too short.
//!
//! Signing, transport, dissemination delay and clock are the host's.
//!
//! ```
//! let mut ledger = vec![0; sdr::ledger_size(400)];
//! assert_eq!(sdr::open(&mut ledger, &[250_000_000; 5]).verdict, sdr::ACCEPTED);
//!
//! let mut tape = [0; sdr::LINE_SIZE];
//! let answer = sdr::submit(&mut ledger, &mut tape, &[0, 0]);
//! assert_eq!((answer.verdict, answer.element), (sdr::ACTION_WRONG, 2));
//! assert_eq!(sdr::totals(&ledger).of(sdr::LIVE), 0);
//! ```
#![deny(missing_docs)]

/// The ledger's header.
pub const HEADER_SIZE: usize = 80;
/// One swap in the ledger.
pub const ROW_SIZE: usize = 184;
/// The shortest ledger: a header and one row.
pub const SHORTEST_LEDGER: usize = HEADER_SIZE + ROW_SIZE;
/// The most swaps that a ledger holds, however long it is.
pub const LARGEST_CAPACITY: usize = 100_000;
/// A line of the tape; the shortest tape buffer.
pub const LINE_SIZE: usize = 170;
/// The longest message.
pub const LONGEST_MESSAGE: usize = 2048;

/// Accepted.
pub const ACCEPTED: u8 = 0;
/// Opening: the ledger buffer is shorter than [`SHORTEST_LEDGER`].
pub const LEDGER_SHORT: u8 = 1;
/// Opening: a cap is outside its range or is not its own rounded amount.
pub const CAP_WRONG: u8 = 2;
/// The ledger is shorter than [`SHORTEST_LEDGER`], or its header breaks the
/// layout, has more rows than capacity, has a cap that [`CAP_WRONG`] refuses or
/// totals that do not add up to the rows in use.
pub const LEDGER_WRONG: u8 = 3;
/// The tape buffer is shorter than [`LINE_SIZE`].
pub const TAPE_SHORT: u8 = 4;
/// The message's layout is wrong.
pub const LAYOUT_WRONG: u8 = 5;
/// The action is missing or not one of the seven; the element is 2.
pub const ACTION_WRONG: u8 = 6;
/// An element needed by all, or by a full action, is missing; the element is
/// the lowest such code.
pub const ELEMENT_MISSING: u8 = 7;
/// TERM, EROR or PRTO has an element above 5; the element is the lowest such
/// code.
pub const ELEMENT_NOT_TAKEN: u8 = 8;
/// A value breaks its form; the element is the lowest such code.
pub const FORM_BROKEN: u8 = 9;
/// Action and event, or its absence, are not a pair of the matrix.
pub const NOT_A_PAIR: u8 = 10;
/// A conditional element is missing; the element is the lowest such code.
pub const CONDITIONAL_MISSING: u8 = 11;
/// The price or the spread of a package has more digits than its notation
/// allows.
pub const PRICE_TOO_LONG: u8 = 12;
/// In a full message expiration is before effective, settlement before
/// expiration, or reporting before execution.
pub const DATES_DISORDERED: u8 = 13;
/// The swap's row has a status or an identifier that no row can have, or a
/// status whose total is 0.
pub const ROW_WRONG: u8 = 14;
/// The swap's status does not admit the action.
pub const NOT_ADMITTED: u8 = 15;
/// MODI or REVI has another execution timestamp than the row.
pub const OTHER_TIME: u8 = 16;
/// NEWT finds rows in use equal to capacity.
pub const LEDGER_FULL: u8 = 17;
/// A line is due and the identifiers are spent.
pub const IDENTIFIERS_SPENT: u8 = 18;
/// A package has both price and spread.
pub const PRICE_AND_SPREAD: u8 = 19;

/// The status of a swap that the ledger does not know.
pub const UNKNOWN: u8 = 0;
/// The status of a live swap.
pub const LIVE: u8 = 1;
/// The status of a closed swap.
pub const CLOSED: u8 = 2;
/// The status of an errored swap.
pub const ERRORED: u8 = 3;
/// The status of a ported swap.
pub const PORTED: u8 = 4;

/// The length of a ledger with room for so many swaps.
pub const fn ledger_size(rows: usize) -> usize {
    HEADER_SIZE + ROW_SIZE * rows
}

/// What an operation answers.
#[derive(Clone, Copy, Debug, PartialEq, Eq, Default)]
pub struct Answer {
    /// [`ACCEPTED`] or the number of the first rule broken.
    pub verdict: u8,
    /// The element at fault, 0 where the verdict names none.
    pub element: u8,
    /// The swap's status; 0 for opening, submitting and beside a refusal.
    pub status: u8,
    /// Submitting: the identifier that the line took, 0 where no line is
    /// written. Status: the swap's last identifier, 0 where it is unknown.
    pub identifier: u64,
}

impl Answer {
    /// Takes the core's number apart: bits 0 to 7 verdict, 8 to 15 element,
    /// 16 to 23 status, 24 to 63 identifier.
    pub fn unpack(number: u64) -> Self {
        let [verdict, element, status, ..] = number.to_le_bytes();
        Answer {
            verdict,
            element,
            status,
            identifier: number >> 24,
        }
    }
}

/// What the totals question answers.
#[derive(Clone, Copy, Debug, PartialEq, Eq, Default)]
pub struct Totals {
    /// [`ACCEPTED`] or [`LEDGER_WRONG`].
    pub verdict: u8,
    /// How many swaps are live, closed, errored and ported, in this order;
    /// zeros beside a refusal.
    pub totals: [u32; 4],
}

impl Totals {
    /// The total of a status; 0 for [`UNKNOWN`] and for numbers that are no
    /// status, which no row has.
    pub fn of(&self, status: u8) -> u32 {
        let place = usize::from(status).checked_sub(usize::from(LIVE));
        let total = place.and_then(|place| self.totals.get(place));
        total.copied().unwrap_or(0)
    }
}

extern "C" {
    fn sdr_open(
        ledger: *mut u8,
        ledger_len: usize,
        cap_cr: u64,
        cap_ir: u64,
        cap_fx: u64,
        cap_eq: u64,
        cap_co: u64,
    ) -> u32;
    fn sdr_submit(
        ledger: *mut u8,
        ledger_len: usize,
        tape: *mut u8,
        tape_len: usize,
        message: *const u8,
        message_len: usize,
    ) -> u64;
    fn sdr_status(ledger: *const u8, ledger_len: usize, uti: *const u8, uti_len: usize) -> u64;
    fn sdr_totals(ledger: *const u8, ledger_len: usize, totals: *mut u32) -> u32;
}

/// Opens a ledger over the buffer, with the caps in the order CR, IR, FX, EQ,
/// CO. Only the verdict of the answer is used: [`ACCEPTED`], [`LEDGER_SHORT`]
/// or [`CAP_WRONG`]. Opening writes the header and no other byte; a refused opening
/// writes nothing.
pub fn open(ledger: &mut [u8], caps: &[u64; 5]) -> Answer {
    let [cr, ir, fx, eq, co] = *caps;
    // SAFETY: pointer and length are those of one slice that is borrowed
    // mutably until the call returns; the core keeps no pointer.
    let number = unsafe { sdr_open(ledger.as_mut_ptr(), ledger.len(), cr, ir, fx, eq, co) };
    Answer::unpack(u64::from(number))
}

/// Submits one message. Where it is accepted the row is written and, where a
/// line is due, the line into the first [`LINE_SIZE`] bytes of the tape buffer.
/// The answer's identifier is 0 where none was due: for PRTO, and for a MODI
/// that shows nothing new, which changes neither buffer. Nor does a refusal.
pub fn submit(ledger: &mut [u8], tape: &mut [u8], message: &[u8]) -> Answer {
    // SAFETY: pointers and lengths are those of three slices that cannot
    // overlap, since two are borrowed mutably; the core writes only to those
    // two and keeps no pointer.
    let number = unsafe {
        sdr_submit(
            ledger.as_mut_ptr(),
            ledger.len(),
            tape.as_mut_ptr(),
            tape.len(),
            message.as_ptr(),
            message.len(),
        )
    };
    Answer::unpack(number)
}

/// Asks for the status and the last identifier of the swap with this UTI.
pub fn status(ledger: &[u8], uti: &[u8]) -> Answer {
    // SAFETY: pointers and lengths are those of two slices; the core only
    // reads them and keeps no pointer.
    let number = unsafe { sdr_status(ledger.as_ptr(), ledger.len(), uti.as_ptr(), uti.len()) };
    Answer::unpack(number)
}

/// Asks how many swaps are live, closed, errored and ported. Reads the header
/// alone.
pub fn totals(ledger: &[u8]) -> Totals {
    let mut totals = [0; 4];
    let verdict = totals_into(ledger, &mut totals).verdict;
    Totals { verdict, totals }
}

/// Asks the same and writes the totals into an array of the caller's: all four,
/// beside a refusal too. Only the verdict of the answer is used: [`ACCEPTED`]
/// or [`LEDGER_WRONG`].
pub fn totals_into(ledger: &[u8], totals: &mut [u32; 4]) -> Answer {
    // SAFETY: pointer and length are those of one slice, which the core only
    // reads; the array, which it writes, has the four numbers that it asks for
    // and is borrowed mutably until the call returns. The core keeps no pointer.
    let number = unsafe { sdr_totals(ledger.as_ptr(), ledger.len(), totals.as_mut_ptr()) };
    Answer::unpack(u64::from(number))
}

#[cfg(test)]
mod empty;

#[cfg(test)]
mod tests {
    use super::{Answer, Totals};

    #[test]
    fn each_field_is_recovered() {
        let number = 17 | 25 << 8 | 4 << 16 | 999_999_999_999 << 24;
        let answer = Answer {
            verdict: 17,
            element: 25,
            status: 4,
            identifier: 999_999_999_999,
        };
        assert_eq!(Answer::unpack(number), answer);
        assert_eq!(Answer::unpack(u64::MAX).identifier, (1 << 40) - 1);
        assert_eq!(Answer::unpack(0), Answer::default());
    }

    #[test]
    fn each_status_has_its_total() {
        let answer = Totals {
            verdict: super::ACCEPTED,
            totals: [40, 30, 20, 10],
        };
        for (status, total) in [
            (super::UNKNOWN, 0),
            (super::LIVE, 40),
            (super::CLOSED, 30),
            (super::ERRORED, 20),
            (super::PORTED, 10),
            (super::PORTED + 1, 0),
            (255, 0),
        ] {
            assert_eq!(answer.of(status), total, "{status}");
        }
    }
}
