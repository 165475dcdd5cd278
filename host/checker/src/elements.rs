//! Section 3, elements: the table of codes; and the seven actions.

use crate::forms::{
    is_allocation, is_asset_class, is_cleared, is_date, is_event, is_lei, is_notional,
    is_package_identifier, is_price, is_price_notation, is_spread_notation, is_time, is_true,
    is_truth, is_uti,
};
use crate::lists::{is_currency, is_location};
use crate::message::Values;

/// Codes run from 1 to this.
pub const LAST_CODE: u16 = 28;

pub const UTI: u16 = 1;
pub const ACTION_TYPE: u16 = 2;
pub const EVENT_TYPE: u16 = 3;
pub const EVENT_TIMESTAMP: u16 = 4;
pub const REPORTING_TIMESTAMP: u16 = 5;
pub const EXECUTION_TIMESTAMP: u16 = 6;
pub const EFFECTIVE_DATE: u16 = 7;
pub const EXPIRATION_DATE: u16 = 8;
pub const SETTLEMENT_DATE: u16 = 9;
pub const CLEARED: u16 = 10;
pub const NON_STANDARDIZED_TERM: u16 = 11;
pub const BLOCK_ELECTION: u16 = 12;
pub const LARGE_NOTIONAL_ELECTION: u16 = 13;
pub const ALLOCATION: u16 = 14;
pub const PACKAGE_INDICATOR: u16 = 15;
pub const PACKAGE_IDENTIFIER: u16 = 16;
pub const PACKAGE_PRICE: u16 = 17;
pub const PRICE_NOTATION: u16 = 18;
pub const PRICE_CURRENCY: u16 = 19;
pub const NOTIONAL_AMOUNT: u16 = 20;
pub const NOTIONAL_CURRENCY: u16 = 21;
pub const SETTLEMENT_LOCATION: u16 = 22;
pub const COUNTERPARTY_1: u16 = 23;
pub const COUNTERPARTY_2: u16 = 24;
pub const ASSET_CLASS: u16 = 25;
pub const PACKAGE_SPREAD: u16 = 26;
pub const SPREAD_NOTATION: u16 = 27;
pub const SPREAD_CURRENCY: u16 = 28;

/// The last code that a short message may have (3.1).
pub const LAST_SHORT: u16 = 5;

/// The column needed. By pair is rule 10, a condition is rule 11.
#[derive(Clone, Copy, PartialEq, Eq)]
pub enum Needed {
    All,
    Full,
    ByPair,
    If,
    Optional,
}

pub fn needed(code: u16) -> Needed {
    match code {
        UTI | ACTION_TYPE | EVENT_TIMESTAMP | REPORTING_TIMESTAMP => Needed::All,
        EVENT_TYPE => Needed::ByPair,
        NON_STANDARDIZED_TERM
        | PACKAGE_IDENTIFIER
        | PACKAGE_PRICE
        | PRICE_NOTATION
        | PRICE_CURRENCY
        | PACKAGE_SPREAD
        | SPREAD_NOTATION
        | SPREAD_CURRENCY => Needed::If,
        SETTLEMENT_LOCATION => Needed::Optional,
        _ => Needed::Full,
    }
}

/// The condition of code 11: 10 is N.
pub fn is_not_cleared(values: &Values) -> bool {
    values.get(CLEARED) == Some(b"N")
}

/// 15 is true.
fn is_package(values: &Values) -> bool {
    values.get(PACKAGE_INDICATOR).is_some_and(is_true)
}

/// The price (17) or the spread (26) of a package; None where it is missing or
/// left out (3.4).
pub fn quoted<'a>(code: u16, values: &Values<'a>) -> Option<&'a [u8]> {
    values.get(code).filter(|_| is_package(values))
}

/// A code has a condition, and it holds (3.3). A package is quoted by price or
/// spread (3.7); where it has neither, the price is due.
pub fn is_due(code: u16, values: &Values) -> bool {
    match code {
        NON_STANDARDIZED_TERM => is_not_cleared(values),
        PACKAGE_IDENTIFIER => is_package(values),
        PACKAGE_PRICE => is_package(values) && values.get(PACKAGE_SPREAD).is_none(),
        PRICE_NOTATION => quoted(PACKAGE_PRICE, values).is_some(),
        PRICE_CURRENCY => is_monetary(PACKAGE_PRICE, PRICE_NOTATION, values),
        SPREAD_NOTATION => quoted(PACKAGE_SPREAD, values).is_some(),
        SPREAD_CURRENCY => is_monetary(PACKAGE_SPREAD, SPREAD_NOTATION, values),
        _ => false,
    }
}

/// The condition of codes 19 and 28: price or spread of a package is there, and
/// its notation is 1.
fn is_monetary(code: u16, notation: u16, values: &Values) -> bool {
    quoted(code, values).is_some() && values.get(notation) == Some(b"1")
}

/// The column form. The action's form is rule 6 and is asked there.
pub fn has_form(code: u16, v: &[u8]) -> bool {
    match code {
        UTI => is_uti(v),
        ACTION_TYPE => Action::read(v).is_some(),
        EVENT_TYPE => is_event(v),
        EVENT_TIMESTAMP | REPORTING_TIMESTAMP | EXECUTION_TIMESTAMP => is_time(v),
        EFFECTIVE_DATE | EXPIRATION_DATE | SETTLEMENT_DATE => is_date(v),
        CLEARED => is_cleared(v),
        NON_STANDARDIZED_TERM | BLOCK_ELECTION | LARGE_NOTIONAL_ELECTION | PACKAGE_INDICATOR => {
            is_truth(v)
        }
        ALLOCATION => is_allocation(v),
        PACKAGE_IDENTIFIER => is_package_identifier(v),
        PACKAGE_PRICE | PACKAGE_SPREAD => is_price(v),
        PRICE_NOTATION => is_price_notation(v),
        SPREAD_NOTATION => is_spread_notation(v),
        PRICE_CURRENCY | NOTIONAL_CURRENCY | SPREAD_CURRENCY => is_currency(v),
        NOTIONAL_AMOUNT => is_notional(v),
        SETTLEMENT_LOCATION => is_location(v),
        COUNTERPARTY_1 | COUNTERPARTY_2 => is_lei(v),
        ASSET_CLASS => is_asset_class(v),
        _ => false,
    }
}

/// Action type, code 2: one of the seven.
#[derive(Clone, Copy, Debug, PartialEq, Eq)]
pub enum Action {
    Newt,
    Modi,
    Corr,
    Term,
    Eror,
    Revi,
    Prto,
}

impl Action {
    /// Byte for byte (1.3).
    pub fn read(v: &[u8]) -> Option<Action> {
        match v {
            b"NEWT" => Some(Action::Newt),
            b"MODI" => Some(Action::Modi),
            b"CORR" => Some(Action::Corr),
            b"TERM" => Some(Action::Term),
            b"EROR" => Some(Action::Eror),
            b"REVI" => Some(Action::Revi),
            b"PRTO" => Some(Action::Prto),
            _ => None,
        }
    }

    /// Messages of these actions are full.
    pub fn is_full(self) -> bool {
        matches!(
            self,
            Action::Newt | Action::Modi | Action::Corr | Action::Revi
        )
    }
}
