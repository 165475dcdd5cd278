//! Cases in which chosen rules are broken and no others.
//!
//! A case starts sound: it is accepted. Each fault breaks exactly one rule.
//! Faults of several rules are put in from the last rule to the first in
//! checking order, so that the first is certainly broken; its number is the
//! verdict that is due.

mod breaking;
mod case;

pub use case::Case;

use crate::layout::TOTALS;
use crate::lists::*;
use crate::matrix::{self, is_full};
use crate::order;
use crate::random::Random;
use sdr::{PORTED, UNKNOWN};

/// A fault in the header or length of the ledger (3).
#[derive(Clone, Copy, Debug, PartialEq, Eq)]
pub enum Damage {
    Short,
    ManyRows,
    /// Rows in use that the capacity allows and the totals do not add up to.
    OtherRows,
    FirstRow,
    NextZero,
    NextHigh,
    Cap(usize),
    RowSize,
    CapacityLow,
    CapacityHigh,
    /// The total at this place is another one.
    Total(usize),
    /// The totals add up to the rows in use at 32 bits, but not exactly.
    TotalsWrap,
}

/// A fault in the message's layout (5).
#[derive(Clone, Copy, Debug, PartialEq, Eq)]
pub enum Layout {
    Empty,
    OneByte,
    CountHigher,
    CountLower,
    CountZero,
    CountTooHigh,
    CodeZero,
    CodeTooHigh,
    CodesEqual,
    FirstOffset,
    OffsetsEqual,
    OffsetAtEnd,
    CutAtLastValue,
    TooLong,
}

/// Which number has too many digits (12).
#[derive(Clone, Copy, Debug, PartialEq, Eq)]
pub enum TooLong {
    DecimalPrice,
    DecimalSpread,
    BasisPoints,
}

/// Two values in the wrong order (13).
#[derive(Clone, Copy, Debug, PartialEq, Eq)]
pub enum Order {
    Expiration,
    Settlement,
    Reporting,
}

/// What is wrong with the swap's row, or with the total of its status (14).
#[derive(Clone, Copy, Debug, PartialEq, Eq)]
pub enum WrongRow {
    Status(u8),
    IdentifierZero,
    IdentifierNext,
    IdentifierHigh,
    /// The total of its status is 0.
    TotalZero,
}

/// A broken rule.
#[derive(Clone, Copy, Debug, PartialEq, Eq)]
pub enum Fault {
    LedgerWrong(Damage),
    TapeShort,
    LayoutWrong(Layout),
    ActionWrong,
    ElementMissing(u8),
    ElementNotTaken(u8),
    FormBroken(u8),
    NotAPair,
    ConditionalMissing(u8),
    PriceAndSpread,
    PriceTooLong(TooLong),
    DatesDisordered(Order),
    RowWrong(WrongRow),
    NotAdmitted(u8),
    OtherTime,
    LedgerFull,
    IdentifiersSpent,
}

impl Fault {
    /// The verdict that the fault alone gets.
    pub fn verdict(self) -> u8 {
        match self {
            Fault::LedgerWrong(_) => sdr::LEDGER_WRONG,
            Fault::TapeShort => sdr::TAPE_SHORT,
            Fault::LayoutWrong(_) => sdr::LAYOUT_WRONG,
            Fault::ActionWrong => sdr::ACTION_WRONG,
            Fault::ElementMissing(_) => sdr::ELEMENT_MISSING,
            Fault::ElementNotTaken(_) => sdr::ELEMENT_NOT_TAKEN,
            Fault::FormBroken(_) => sdr::FORM_BROKEN,
            Fault::NotAPair => sdr::NOT_A_PAIR,
            Fault::ConditionalMissing(_) => sdr::CONDITIONAL_MISSING,
            Fault::PriceAndSpread => sdr::PRICE_AND_SPREAD,
            Fault::PriceTooLong(_) => sdr::PRICE_TOO_LONG,
            Fault::DatesDisordered(_) => sdr::DATES_DISORDERED,
            Fault::RowWrong(_) => sdr::ROW_WRONG,
            Fault::NotAdmitted(_) => sdr::NOT_ADMITTED,
            Fault::OtherTime => sdr::OTHER_TIME,
            Fault::LedgerFull => sdr::LEDGER_FULL,
            Fault::IdentifiersSpent => sdr::IDENTIFIERS_SPENT,
        }
    }

    /// The element that the verdict names.
    pub fn element(self) -> u8 {
        match self {
            Fault::ActionWrong => ACTION_TYPE,
            Fault::ElementMissing(code)
            | Fault::ElementNotTaken(code)
            | Fault::FormBroken(code)
            | Fault::ConditionalMissing(code) => code,
            _ => 0,
        }
    }

    /// The verdict and the element that the fault alone gets.
    pub fn due(self) -> (u8, u8) {
        (self.verdict(), self.element())
    }

    /// How early the fault is found: by the order of the rules, then by the
    /// element.
    fn place(self) -> (usize, u8) {
        (order::place(self.verdict()), self.element())
    }

    /// Whether a message of this action can have the fault.
    pub fn fits(self, action: &str) -> bool {
        match self {
            Fault::ElementMissing(code) | Fault::FormBroken(code) => takes(action, code),
            Fault::ElementNotTaken(code) => !takes(action, code),
            Fault::ConditionalMissing(_)
            | Fault::PriceAndSpread
            | Fault::PriceTooLong(_)
            | Fault::DatesDisordered(_) => is_full(action),
            Fault::NotAdmitted(status) => matrix::status_after(action, status).is_none(),
            Fault::OtherTime => matrix::repeats_execution(action),
            Fault::LedgerFull => action == "NEWT",
            Fault::IdentifiersSpent => matrix::can_write_line(action),
            _ => true,
        }
    }
}

/// Every fault there is.
pub fn all() -> Vec<Fault> {
    let mut faults = vec![
        Fault::TapeShort,
        Fault::ActionWrong,
        Fault::NotAPair,
        Fault::PriceAndSpread,
        Fault::OtherTime,
        Fault::LedgerFull,
        Fault::IdentifiersSpent,
    ];
    faults.extend(damages().into_iter().map(Fault::LedgerWrong));
    faults.extend(LAYOUTS.map(Fault::LayoutWrong));
    faults.extend(NEEDED_BY_ALL.map(Fault::ElementMissing));
    faults.extend(NEEDED_BY_FULL.map(Fault::ElementMissing));
    faults.extend(codes_of_full_messages().map(Fault::ElementNotTaken));
    faults.extend(codes_with_a_form().map(Fault::FormBroken));
    faults.extend(CONDITIONAL.map(Fault::ConditionalMissing));
    faults.extend(TOO_LONG.map(Fault::PriceTooLong));
    faults.extend(
        [Order::Expiration, Order::Settlement, Order::Reporting].map(Fault::DatesDisordered),
    );
    faults.extend(WRONG_ROWS.map(Fault::RowWrong));
    faults.extend(statuses().map(Fault::NotAdmitted));
    faults
}

fn damages() -> Vec<Damage> {
    let mut damages = vec![
        Damage::Short,
        Damage::ManyRows,
        Damage::OtherRows,
        Damage::FirstRow,
        Damage::NextZero,
        Damage::NextHigh,
        Damage::RowSize,
        Damage::CapacityLow,
        Damage::CapacityHigh,
        Damage::TotalsWrap,
    ];
    damages.extend((0..CLASSES.len()).map(Damage::Cap));
    damages.extend((0..TOTALS).map(Damage::Total));
    damages
}

const LAYOUTS: [Layout; 14] = [
    Layout::Empty,
    Layout::OneByte,
    Layout::CountHigher,
    Layout::CountLower,
    Layout::CountZero,
    Layout::CountTooHigh,
    Layout::CodeZero,
    Layout::CodeTooHigh,
    Layout::CodesEqual,
    Layout::FirstOffset,
    Layout::OffsetsEqual,
    Layout::OffsetAtEnd,
    Layout::CutAtLastValue,
    Layout::TooLong,
];

const TOO_LONG: [TooLong; 3] = [
    TooLong::DecimalPrice,
    TooLong::DecimalSpread,
    TooLong::BasisPoints,
];

const WRONG_ROWS: [WrongRow; 7] = [
    WrongRow::Status(UNKNOWN),
    WrongRow::Status(PORTED + 1),
    WrongRow::Status(255),
    WrongRow::IdentifierZero,
    WrongRow::IdentifierNext,
    WrongRow::IdentifierHigh,
    WrongRow::TotalZero,
];

/// Up to so many different faults that a message of the action can have.
pub fn some(random: &mut Random, faults: &[Fault], action: &str, most: usize) -> Vec<Fault> {
    let mut chosen: Vec<Fault> = Vec::new();
    for _ in 0..random.between(0, most) {
        let fault = *random.pick(faults);
        if fault.fits(action) && !chosen.contains(&fault) {
            chosen.push(fault);
        }
    }
    chosen
}
