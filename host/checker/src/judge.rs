//! The four operations: open a ledger, submit one message, ask the status of
//! one swap, ask for the totals.

use crate::elements::{Action, ACTION_TYPE, EVENT_TIMESTAMP, EVENT_TYPE, UTI};
use crate::forms::is_uti;
use crate::ledger::{
    add_row, change_row, end_row, find, move_totals, port_row, raise_next_identifier, write_header,
    Header, Row, UNKNOWN,
};
use crate::line::{is_line_due, masked_terms, write_line, Lead};
use crate::message::Values;
use crate::rules::{
    refusal_at, rule_10_not_a_pair, rule_11_conditional_missing, rule_12_price_too_long,
    rule_13_dates_disordered, rule_14_row_wrong, rule_15_not_admitted, rule_16_other_time,
    rule_17_ledger_full, rule_18_identifiers_spent, rule_19_price_and_spread, rule_1_ledger_short,
    rule_2_cap_wrong, rule_3_ledger_wrong, rule_4_tape_short, rule_5_layout_wrong,
    rule_6_action_wrong, rule_7_element_missing, rule_8_element_not_taken, rule_9_form_broken,
    Answer, Judged,
};
use crate::sizes::{TERMS, TOTALS};

/// Opens a ledger over a lent buffer. The caps are in the order CR, IR, FX,
/// EQ, CO. Answers the verdict.
pub fn open(ledger: &mut [u8], caps: &[u64; 5]) -> u8 {
    if let Err(answer) = rule_1_ledger_short(ledger).and_then(|()| rule_2_cap_wrong(caps)) {
        return answer.verdict;
    }
    write_header(ledger, caps);
    0
}

/// Submits one message.
pub fn submit(ledger: &mut [u8], tape: &mut [u8], message: &[u8]) -> Answer {
    match judge(ledger, tape, message) {
        Ok(accepted) => carry_out(ledger, tape, &accepted),
        Err(answer) => answer,
    }
}

/// Asks the status of one swap (10.6): rules 3, 9 and 14, then status and last
/// identifier.
pub fn status(ledger: &[u8], uti: &[u8]) -> Answer {
    match ask(ledger, uti) {
        Ok(answer) | Err(answer) => answer,
    }
}

fn ask(ledger: &[u8], uti: &[u8]) -> Judged<Answer> {
    let header = rule_3_ledger_wrong(ledger)?;
    if !is_uti(uti) {
        return Err(refusal_at(9, UTI));
    }
    let Some((_, row)) = find(ledger, &header, uti) else {
        return Ok(Answer::default());
    };
    rule_14_row_wrong(Some(row), &header)?;
    Ok(Answer {
        status: row.status(),
        identifier: row.identifier(),
        ..Answer::default()
    })
}

/// Asks for the totals (10.8): rule 3, then the totals by status as stored, from
/// live to ported. Beside 3 they are zeros.
pub fn totals(ledger: &[u8]) -> (u8, [u32; 4]) {
    match rule_3_ledger_wrong(ledger) {
        Ok(header) => (0, header.totals),
        Err(answer) => (answer.verdict, [0; TOTALS]),
    }
}

/// A message that every rule lets pass, and what carrying it out needs.
struct Accepted<'a> {
    header: Header,
    values: Values<'a>,
    action: Action,
    /// Place and last identifier of the swap's row; None for NEWT.
    row: Option<(usize, u64)>,
    /// UNKNOWN for NEWT.
    old_status: u8,
    new_status: u8,
    /// The masked terms: its own where it is full, else the stored ones (7.5).
    terms: [u8; TERMS],
    line_due: bool,
}

/// Rules 3 to 19, in checking order. Nothing is written.
fn judge<'a>(ledger: &[u8], tape: &[u8], message: &'a [u8]) -> Judged<Accepted<'a>> {
    let header = rule_3_ledger_wrong(ledger)?;
    rule_4_tape_short(tape)?;
    let values = rule_5_layout_wrong(message)?;
    let action = rule_6_action_wrong(&values)?;
    rule_7_element_missing(&values, action)?;
    rule_8_element_not_taken(&values, action)?;
    rule_9_form_broken(&values)?;
    rule_10_not_a_pair(&values)?;
    rule_11_conditional_missing(&values)?;
    rule_19_price_and_spread(&values)?;
    rule_12_price_too_long(&values)?;
    rule_13_dates_disordered(&values, action)?;
    let found = find(ledger, &header, values.present(UTI));
    let row = found.map(|(_, row)| row);
    rule_14_row_wrong(row, &header)?;
    let new_status = rule_15_not_admitted(row, action)?;
    rule_16_other_time(row, &values, action)?;
    let terms = match row {
        Some(row) if !action.is_full() => row.terms(),
        _ => masked_terms(&values, &header.caps),
    };
    let line_due = is_line_due(action, row, &terms);
    rule_17_ledger_full(&header, action)?;
    rule_18_identifiers_spent(&header, line_due)?;
    Ok(Accepted {
        header,
        values,
        action,
        row: found.map(|(place, row)| (place, row.identifier())),
        old_status: row.map_or(UNKNOWN, Row::status),
        new_status,
        terms,
        line_due,
    })
}

/// Writes what sections 7 and 8 say of an accepted message. No rule is left
/// that could refuse.
fn carry_out(ledger: &mut [u8], tape: &mut [u8], accepted: &Accepted) -> Answer {
    let Accepted {
        header,
        values,
        action,
        row,
        old_status,
        new_status,
        terms,
        line_due,
    } = accepted;
    move_totals(ledger, header, *old_status, *new_status);
    if !line_due {
        // PRTO writes the status; a MODI without a line changes no byte (8.6).
        if let (Action::Prto, Some((place, _))) = (action, *row) {
            port_row(ledger, place, *new_status);
        }
        return Answer::default();
    }
    let identifier = header.next_identifier;
    match *row {
        // Only NEWT passes rule 15 without a row.
        None => {
            let uti = values.present(UTI);
            add_row(ledger, header, *new_status, uti, identifier, terms);
        }
        Some((place, _)) if action.is_full() => {
            change_row(ledger, place, *new_status, identifier, terms);
        }
        Some((place, _)) => end_row(ledger, place, *new_status, identifier),
    }
    let lead = Lead {
        identifier,
        previous: row.map(|(_, identifier)| identifier),
        action: values.present(ACTION_TYPE),
        event: values.get(EVENT_TYPE),
        event_time: values.present(EVENT_TIMESTAMP),
    };
    write_line(tape, &lead, terms);
    raise_next_identifier(ledger, header);
    Answer {
        identifier,
        ..Answer::default()
    }
}
