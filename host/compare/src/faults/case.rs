//! What one submission is lent, sound or with rules broken.

use super::breaking::spoiled;
use super::{Fault, Layout};
use crate::layout::{self, Header, Row, EXECUTION_IN_TERMS, IDENTIFIER_LIMIT, ROW_SIZE};
use crate::layout::{total_place, TAIL_SIZE};
use crate::lists::{ROW_STATUSES, UTI};
use crate::matrix;
use crate::message::Message;
use crate::random::Random;
use crate::showing::showing;
use crate::sound;
use crate::terms::{line_is_due, terms_of};
use crate::values;
use sdr::ACCEPTED;

/// What one submission is lent, kept so that it can be changed.
#[derive(Clone)]
pub struct Case {
    pub header: Header,
    pub rows: Vec<Row>,
    pub ledger_length: usize,
    pub tape_length: usize,
    pub message: Message,
    /// The row that is the swap's or can be made so.
    pub row: usize,
    pub(super) layout: Option<Layout>,
    fill: Vec<u8>,
}

impl Case {
    /// A case that is accepted.
    pub fn sound(random: &mut Random, action: &str) -> Case {
        let count = random.between(1, 6);
        let spare = random.between(1, 3);
        let ledger_length = layout::ledger_size(count + spare) + random.below(ROW_SIZE);
        let mut header = Header::opened(ledger_length, values::caps(random));
        header.next = next_identifier(random);
        let utis = values::utis(random, count + 1);
        let rows: Vec<Row> = utis[..count]
            .iter()
            .map(|uti| any_row(random, uti, &header))
            .collect();
        let row = random.below(count);
        let mut case = Case {
            header,
            rows,
            ledger_length,
            tape_length: values::tape_length(random),
            message: Message::default(),
            row,
            layout: None,
            fill: random.bytes(ledger_length),
        };
        case.set_message(random, action, &utis[count]);
        case.set_totals(random);
        case
    }

    /// A sound message about the case's swap; NEWT is about an unknown one.
    /// One full message in three shows the stored terms.
    fn set_message(&mut self, random: &mut Random, action: &str, unknown: &[u8]) {
        if action == "NEWT" {
            self.message = sound::message(random, action, unknown);
            return;
        }
        let row = &mut self.rows[self.row];
        row.status = *random.pick(&matrix::admitting(action));
        self.message = if matrix::is_full(action) && random.once_in(3) {
            showing(random, action, row.uti(), &row.terms, &self.header.caps)
        } else {
            let execution = row.terms[EXECUTION_IN_TERMS].to_vec();
            sound::message_executed(random, action, row.uti(), &execution)
        };
        if action == "CORR" && random.once_in(2) {
            let mended = values::time(random);
            sound::set_execution(random, &mut self.message, &mended);
        }
    }

    /// Takes the rows into use. The totals are a count of them or, now and then,
    /// any that add up to as many, with one at least for the case's swap.
    fn set_totals(&mut self, random: &mut Random) {
        self.header.count(&self.rows);
        if random.once_in(4) {
            self.header.totals = values::totals(random, self.header.rows - 1);
            let own = total_place(self.rows[self.row].status);
            self.header.totals[own] += 1;
        }
    }

    /// The ledger's bytes.
    pub fn ledger(&self) -> Vec<u8> {
        let mut ledger = self.fill.clone();
        layout::write(&mut ledger, &self.header, &self.rows);
        ledger.truncate(self.ledger_length);
        ledger
    }

    /// A tape buffer with old bytes in it.
    pub fn tape(&self) -> Vec<u8> {
        self.fill
            .iter()
            .cycle()
            .take(self.tape_length)
            .copied()
            .collect()
    }

    /// The message's bytes.
    pub fn message(&self) -> Vec<u8> {
        match self.layout {
            Some(fault) => spoiled(&self.message, fault),
            None => self.message.encode(),
        }
    }

    /// Whether a line is due for the message, which breaks no rule.
    pub fn line_is_due(&self) -> bool {
        let of_message = |row: &&Row| row.uti() == self.message.value(UTI);
        let row = self.rows.iter().find(of_message);
        line_is_due(&self.message, row.map(|row| &row.terms), &self.header.caps)
    }

    /// Puts faults in and says which verdict and element are due.
    pub fn break_rules(&mut self, random: &mut Random, faults: &[Fault]) -> (u8, u8) {
        let mut faults = faults.to_vec();
        faults.sort_by_key(|fault| std::cmp::Reverse(fault.place()));
        for fault in &faults {
            self.break_rule(random, *fault);
        }
        faults.last().map_or((ACCEPTED, 0), |fault| fault.due())
    }
}

/// The next identifier of a ledger that has been in use.
fn next_identifier(random: &mut Random) -> u64 {
    match random.below(4) {
        0 => 2 + random.bits() % 300,
        1 => IDENTIFIER_LIMIT - 1,
        _ => 2 + random.bits() % (IDENTIFIER_LIMIT - 3),
    }
}

/// A row that no rule objects to.
fn any_row(random: &mut Random, uti: &[u8], header: &Header) -> Row {
    let terms = terms_of(&sound::message(random, "NEWT", uti), &header.caps);
    let identifier = match random.below(3) {
        0 => 1,
        1 => header.next - 1,
        _ => 1 + random.bits() % (header.next - 1),
    };
    let mut row = Row::new(uti, identifier, terms);
    row.status = *random.pick(&ROW_STATUSES);
    if random.once_in(4) {
        row.uti[uti.len()..].fill(b'X');
        row.tail = [1; TAIL_SIZE];
    }
    row
}
