//! Section 9, verdicts, and the statuses of section 5: each rule a function
//! that passes, perhaps with what it has read, or refuses.

use crate::amounts::is_cap;
use crate::elements::{
    has_form, is_due, needed, quoted, Action, Needed, ACTION_TYPE, EFFECTIVE_DATE, EVENT_TYPE,
    EXECUTION_TIMESTAMP, EXPIRATION_DATE, LAST_CODE, LAST_SHORT, PACKAGE_PRICE, PACKAGE_SPREAD,
    PRICE_NOTATION, REPORTING_TIMESTAMP, SETTLEMENT_DATE, SPREAD_NOTATION,
};
use crate::ledger::{
    is_long_enough, read_header, Header, Row, CLOSED, ERRORED, IDENTIFIER_LIMIT, LIVE, PORTED,
    UNKNOWN,
};
use crate::matrix::is_pair;
use crate::message::Values;
use crate::price::price_too_long;
use crate::sizes::line;

/// What an operation answers.
#[derive(Clone, Copy, Debug, PartialEq, Eq, Default)]
pub struct Answer {
    pub verdict: u8,
    pub element: u8,
    pub status: u8,
    pub identifier: u64,
}

/// A rule passes, perhaps with what it has read, or refuses with an answer.
pub type Judged<T> = Result<T, Answer>;

/// A refusal that names no element.
fn refusal(verdict: u8) -> Answer {
    refusal_at(verdict, 0)
}

/// A refusal that names an element (6, 7, 8, 9 and 11).
pub fn refusal_at(verdict: u8, code: u16) -> Answer {
    Answer {
        verdict,
        element: code as u8,
        ..Answer::default()
    }
}

/// Passes where nothing is at fault.
fn refuse_if(fault: bool, verdict: u8) -> Judged<()> {
    if fault {
        Err(refusal(verdict))
    } else {
        Ok(())
    }
}

/// Passes where no code is at fault, else names the lowest one that is.
fn refuse_lowest(verdict: u8, at_fault: impl Fn(u16) -> bool) -> Judged<()> {
    match (1..=LAST_CODE).find(|&code| at_fault(code)) {
        Some(code) => Err(refusal_at(verdict, code)),
        None => Ok(()),
    }
}

/// 1. The ledger buffer is shorter than the shortest ledger.
pub fn rule_1_ledger_short(ledger: &[u8]) -> Judged<()> {
    refuse_if(!is_long_enough(ledger), 1)
}

/// 2. A cap is outside its range or is not its own rounded amount.
pub fn rule_2_cap_wrong(caps: &[u64; 5]) -> Judged<()> {
    refuse_if(!caps.iter().all(|&cap| is_cap(cap)), 2)
}

/// 3. The ledger is shorter than the shortest one, or its header breaks the
///    layout, has more rows than capacity, a cap that 2 refuses or totals that
///    do not add up to the rows in use.
pub fn rule_3_ledger_wrong(ledger: &[u8]) -> Judged<Header> {
    read_header(ledger).ok_or(refusal(3))
}

/// 4. The tape buffer is shorter than a line, even for PRTO.
pub fn rule_4_tape_short(tape: &[u8]) -> Judged<()> {
    refuse_if(tape.len() < line::SIZE, 4)
}

/// 5. The message's layout is wrong.
pub fn rule_5_layout_wrong(message: &[u8]) -> Judged<Values<'_>> {
    Values::read(message).ok_or(refusal(5))
}

/// 6. The action is missing or not one of the seven.
pub fn rule_6_action_wrong(values: &Values) -> Judged<Action> {
    values
        .get(ACTION_TYPE)
        .and_then(Action::read)
        .ok_or(refusal_at(6, ACTION_TYPE))
}

/// 7. An element needed by all, or by a full action, is missing.
pub fn rule_7_element_missing(values: &Values, action: Action) -> Judged<()> {
    refuse_lowest(7, |code| {
        let is_needed = match needed(code) {
            Needed::All => true,
            Needed::Full => action.is_full(),
            Needed::ByPair | Needed::If | Needed::Optional => false,
        };
        is_needed && values.get(code).is_none()
    })
}

/// 8. TERM, EROR or PRTO has an element above 5.
pub fn rule_8_element_not_taken(values: &Values, action: Action) -> Judged<()> {
    refuse_lowest(8, |code| {
        !action.is_full() && code > LAST_SHORT && values.get(code).is_some()
    })
}

/// 9. A value breaks its form, also that of an element whose condition does
///    not hold.
pub fn rule_9_form_broken(values: &Values) -> Judged<()> {
    refuse_lowest(9, |code| {
        values.get(code).is_some_and(|v| !has_form(code, v))
    })
}

/// 10. Action and event, or its absence, are not a pair of the matrix.
pub fn rule_10_not_a_pair(values: &Values) -> Judged<()> {
    let is_pair = is_pair(values.present(ACTION_TYPE), values.get(EVENT_TYPE));
    refuse_if(!is_pair, 10)
}

/// 11. A conditional element is missing. (TERM, EROR and PRTO have neither
///     code 10 nor 15 after rule 8, so no condition holds.)
pub fn rule_11_conditional_missing(values: &Values) -> Judged<()> {
    refuse_lowest(11, |code| {
        is_due(code, values) && values.get(code).is_none()
    })
}

/// 19. A package has both price and spread. It is judged between 11 and 12.
pub fn rule_19_price_and_spread(values: &Values) -> Judged<()> {
    let there = |code| quoted(code, values).is_some();
    refuse_if(there(PACKAGE_PRICE) && there(PACKAGE_SPREAD), 19)
}

/// 12. The price or the spread of a package is longer than its notation allows.
pub fn rule_12_price_too_long(values: &Values) -> Judged<()> {
    let too_long = |code, notation| {
        quoted(code, values).is_some_and(|v| price_too_long(v, values.present(notation)))
    };
    let fault =
        too_long(PACKAGE_PRICE, PRICE_NOTATION) || too_long(PACKAGE_SPREAD, SPREAD_NOTATION);
    refuse_if(fault, 12)
}

/// 13. In a full message expiration is before effective, settlement before
///     expiration, or reporting before execution. Dates and times of one form
///     stand in the order of their bytes.
pub fn rule_13_dates_disordered(values: &Values, action: Action) -> Judged<()> {
    let before = |one, other| values.present(one) < values.present(other);
    let fault = action.is_full()
        && (before(EXPIRATION_DATE, EFFECTIVE_DATE)
            || before(SETTLEMENT_DATE, EXPIRATION_DATE)
            || before(REPORTING_TIMESTAMP, EXECUTION_TIMESTAMP));
    refuse_if(fault, 13)
}

/// 14. The swap's row has a status outside 1 to 4, an identifier outside 1 to
///     next less 1, or a status whose total is 0.
pub fn rule_14_row_wrong(row: Option<Row>, header: &Header) -> Judged<()> {
    let fault = row.is_some_and(|row| {
        !(LIVE..=PORTED).contains(&row.status())
            || !(1..header.next_identifier).contains(&row.identifier())
            || header.total(row.status()) == 0
    });
    refuse_if(fault, 14)
}

/// 15. The swap's status does not admit the action. Answers the new status.
pub fn rule_15_not_admitted(row: Option<Row>, action: Action) -> Judged<u8> {
    let status = row.map_or(UNKNOWN, Row::status);
    status_after(action, status).ok_or(refusal(15))
}

/// The status after an action (5.2); None
/// where there is no such step.
pub fn status_after(action: Action, status: u8) -> Option<u8> {
    match (action, status) {
        (Action::Newt, UNKNOWN) => Some(LIVE),
        (Action::Modi, LIVE) => Some(LIVE),
        (Action::Corr, LIVE | CLOSED) => Some(status),
        (Action::Term, LIVE) => Some(CLOSED),
        (Action::Eror, LIVE | CLOSED) => Some(ERRORED),
        (Action::Revi, ERRORED | CLOSED) => Some(LIVE),
        (Action::Prto, LIVE) => Some(PORTED),
        _ => None,
    }
}

/// 16. MODI or REVI has another execution timestamp than the row.
pub fn rule_16_other_time(row: Option<Row>, values: &Values, action: Action) -> Judged<()> {
    let fault = matches!(action, Action::Modi | Action::Revi)
        && row.map(Row::execution_time) != values.get(EXECUTION_TIMESTAMP);
    refuse_if(fault, 16)
}

/// 17. NEWT finds rows in use equal to capacity.
pub fn rule_17_ledger_full(header: &Header, action: Action) -> Judged<()> {
    refuse_if(action == Action::Newt && header.rows == header.capacity, 17)
}

/// 18. A line is due and the next identifier is 1,000,000,000,000.
pub fn rule_18_identifiers_spent(header: &Header, line_due: bool) -> Judged<()> {
    refuse_if(line_due && header.next_identifier == IDENTIFIER_LIMIT, 18)
}
