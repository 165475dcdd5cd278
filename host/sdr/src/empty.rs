//! Empty buffers, as empty slices through the wrapper and as NULL with length
//! 0 through the C interface itself.

use super::{sdr_open, sdr_status, sdr_submit, sdr_totals, Answer, Totals, LINE_SIZE};
use std::ptr::{null, null_mut};

/// Caps of 250,000,000 for all five classes.
const CAPS: [u64; 5] = [250_000_000; 5];

fn opened() -> Vec<u8> {
    let mut ledger = vec![0; super::ledger_size(3)];
    assert_eq!(super::open(&mut ledger, &CAPS).verdict, super::ACCEPTED);
    ledger
}

/// The answer that holds this verdict and nothing else.
fn only(verdict: u8) -> Answer {
    Answer {
        verdict,
        ..Answer::default()
    }
}

#[test]
fn empty_slices_are_short_buffers() {
    let mut ledger = opened();
    let before = ledger.clone();
    let mut tape = [7; LINE_SIZE];
    assert_eq!(super::open(&mut [], &CAPS), only(super::LEDGER_SHORT));
    assert_eq!(super::open(&mut [], &[0; 5]), only(super::LEDGER_SHORT));
    assert_eq!(
        super::submit(&mut [], &mut [], &[]),
        only(super::LEDGER_WRONG)
    );
    assert_eq!(
        super::submit(&mut ledger, &mut [], &[]),
        only(super::TAPE_SHORT)
    );
    assert_eq!(
        super::submit(&mut ledger, &mut tape, &[]),
        only(super::LAYOUT_WRONG)
    );
    assert_eq!(super::status(&[], &[]), only(super::LEDGER_WRONG));
    assert_eq!(super::status(&ledger, &[]), element_1());
    assert_eq!(super::totals(&[]), no_totals());
    assert_eq!(ledger, before);
    assert_eq!(tape, [7; LINE_SIZE]);
}

fn element_1() -> Answer {
    Answer {
        verdict: super::FORM_BROKEN,
        element: 1,
        ..Answer::default()
    }
}

fn no_totals() -> Totals {
    Totals {
        verdict: super::LEDGER_WRONG,
        totals: [0; 4],
    }
}

#[test]
fn null_with_length_0_is_an_empty_buffer() {
    let mut ledger = opened();
    let before = ledger.clone();
    let mut tape = [7; LINE_SIZE];
    let mut totals = [7; 4];
    let (start, size) = (ledger.as_mut_ptr(), ledger.len());
    // SAFETY: each pointer is NULL with length 0 or that of a whole vector or
    // array that nothing else uses meanwhile.
    let answers = unsafe {
        [
            u64::from(sdr_open(null_mut(), 0, 1000, 1000, 1000, 1000, 1000)),
            sdr_submit(null_mut(), 0, tape.as_mut_ptr(), LINE_SIZE, null(), 0),
            sdr_submit(start, size, null_mut(), 0, null(), 0),
            sdr_submit(start, size, tape.as_mut_ptr(), LINE_SIZE, null(), 0),
            sdr_status(null(), 0, null(), 0),
            sdr_status(start, size, null(), 0),
            u64::from(sdr_totals(null(), 0, totals.as_mut_ptr())),
        ]
    };
    assert_eq!(answers, [1, 3, 4, 5, 3, 9 | 1 << 8, 3]);
    assert_eq!(ledger, before);
    assert_eq!(tape, [7; LINE_SIZE]);
    assert_eq!(totals, [0; 4]);
}
