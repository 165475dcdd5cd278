//! What each line submits, and to a ledger of how many rows.

use crate::due::Due;
use crate::faults;
use crate::ledgers::{put_header_back, put_row_back, Ledger};
use crate::messages::{sound, sound_new, sound_new_by_spread, sound_showing};
use crate::mixed::{Mixed, Sent};
use crate::utis::Shape;
use compare::random::Random;
use sdr::{ACTION_WRONG, DATES_DISORDERED, LARGEST_CAPACITY, LAYOUT_WRONG, NOT_ADMITTED};

/// The UTIs of the lines' ledgers.
pub const SHAPE: Shape = Shape::MixedLengths;
/// The rows in use that every kind is tried with.
pub const ROWS: [usize; 4] = [0, 400, 10_000, LARGEST_CAPACITY];
/// One message in so many about a live swap ports it.
const PORTING: usize = 20;

/// What is put back after a submission, so that the next one meets the same
/// ledger.
#[derive(Clone, Copy)]
pub enum PutBack {
    Nothing,
    Header,
    HeaderAndRow(usize),
}

impl PutBack {
    /// Copies it from a saved ledger.
    pub fn copy(self, ledger: &mut [u8], saved: &[u8]) {
        match self {
            PutBack::Nothing => {}
            PutBack::Header => put_header_back(ledger, saved),
            PutBack::HeaderAndRow(place) => {
                put_header_back(ledger, saved);
                put_row_back(ledger, saved, place);
            }
        }
    }
}

/// A message with what is due for it.
pub struct Case {
    pub message: Vec<u8>,
    pub due: Due,
    pub put_back: PutBack,
}

#[derive(Clone, Copy, PartialEq, Eq)]
pub enum Kind {
    AcceptedNew,
    AcceptedSpread,
    LayoutWrong,
    ActionWrong,
    DatesDisordered,
    KnownSwap,
    TermLast,
    ShowsNothing,
    MixedDay,
}

impl Kind {
    pub const ALL: [Kind; 9] = [
        Kind::AcceptedNew,
        Kind::AcceptedSpread,
        Kind::LayoutWrong,
        Kind::ActionWrong,
        Kind::DatesDisordered,
        Kind::KnownSwap,
        Kind::TermLast,
        Kind::ShowsNothing,
        Kind::MixedDay,
    ];

    pub fn name(self) -> &'static str {
        match self {
            Kind::AcceptedNew => "NEWT accepted",
            Kind::AcceptedSpread => "NEWT by a spread accepted",
            Kind::LayoutWrong => "layout wrong (verdict 5)",
            Kind::ActionWrong => "action wrong (verdict 6)",
            Kind::DatesDisordered => "dates disordered (verdict 13)",
            Kind::KnownSwap => "NEWT of the last row's swap (verdict 15)",
            Kind::TermLast => "TERM of the last row accepted",
            Kind::ShowsNothing => "MODI of the last row that shows nothing",
            Kind::MixedDay => "mixed day",
        }
    }

    /// The rows in use for one of the sizes, or none where the kind asks for a
    /// known swap and there is none. Where a NEWT is accepted one row stays free.
    pub fn rows(self, size: usize) -> Option<usize> {
        match self {
            Kind::KnownSwap | Kind::TermLast | Kind::ShowsNothing | Kind::MixedDay if size == 0 => {
                None
            }
            Kind::AcceptedNew | Kind::AcceptedSpread | Kind::MixedDay => {
                Some(size.min(LARGEST_CAPACITY - 1))
            }
            _ => Some(size),
        }
    }

    /// So many messages about the swaps of this ledger.
    pub fn cases(self, ledger: &Ledger, count: usize) -> Vec<Case> {
        let random = &mut Random::new(2);
        let last = ledger.rows().saturating_sub(1);
        let unknown = |number: usize| SHAPE.uti(ledger.rows() + number);
        match self {
            Kind::AcceptedNew => each(count, Due::Line, PutBack::Header, |number| {
                sound_new(random, &unknown(number)).encode()
            }),
            Kind::AcceptedSpread => each(count, Due::Line, PutBack::Header, |number| {
                sound_new_by_spread(random, &unknown(number)).encode()
            }),
            Kind::LayoutWrong => refused(count, LAYOUT_WRONG, |number| {
                faults::layout_wrong(number, &sound_new(random, &unknown(number)))
            }),
            Kind::ActionWrong => refused(count, ACTION_WRONG, |number| {
                faults::action_wrong(number, &sound_new(random, &unknown(number))).encode()
            }),
            Kind::DatesDisordered => refused(count, DATES_DISORDERED, |number| {
                faults::dates_disordered(number, &sound_new(random, &unknown(number))).encode()
            }),
            Kind::KnownSwap => refused(count, NOT_ADMITTED, |_| {
                sound_new(random, &ledger.uti(last)).encode()
            }),
            Kind::TermLast => each(count, Due::Line, PutBack::HeaderAndRow(last), |_| {
                sound(random, "TERM", &ledger.uti(last), "").encode()
            }),
            Kind::ShowsNothing => each(count, Due::NoLine, PutBack::Nothing, |_| {
                sound_showing(random, &ledger.uti(last), ledger.terms(last)).encode()
            }),
            Kind::MixedDay => mixed(ledger, count),
        }
    }
}

/// So many messages for which the same is due.
fn each(
    count: usize,
    due: Due,
    put_back: PutBack,
    message: impl FnMut(usize) -> Vec<u8>,
) -> Vec<Case> {
    let case = |message| Case {
        message,
        due,
        put_back,
    };
    (0..count).map(message).map(case).collect()
}

/// So many messages that are refused.
fn refused(count: usize, verdict: u8, message: impl FnMut(usize) -> Vec<u8>) -> Vec<Case> {
    each(count, Due::Refused(verdict), PutBack::Nothing, message)
}

/// A mixed day on which every message meets the same ledger.
fn mixed(ledger: &Ledger, count: usize) -> Vec<Case> {
    let mut day = Mixed::about(ledger, SHAPE, PORTING);
    let case = |sent: Sent| Case {
        put_back: match (sent.due, sent.place) {
            (Due::Refused(_), _) => PutBack::Nothing,
            (_, Some(place)) => PutBack::HeaderAndRow(place),
            (_, None) => PutBack::Header,
        },
        message: sent.message,
        due: sent.due,
    };
    (0..count).map(|_| case(day.next(ledger))).collect()
}
