//! Life cycles of swaps, and a model that says what each step has to do.

use crate::layout::{Caps, Header, Row, EXECUTION_IN_TERMS, IDENTIFIER_LIMIT, LINE_SIZE};
use crate::layout::{TERMS_SIZE, WORD_SIZE};
use crate::lists::{ACTIONS, ACTION_TYPE, EVENTS, EVENT_TYPE, EXECUTION_TIMESTAMP, UTI};
use crate::matrix::{self, is_full, repeats_execution};
use crate::message::Message;
use crate::order;
use crate::random::Random;
use crate::showing::showing;
use crate::sound;
use crate::terms::{line_is_due, line_of, terms_of};
use crate::values;
use sdr::{ACCEPTED, IDENTIFIERS_SPENT, LEDGER_FULL, UNKNOWN};
use sdr::{NOT_ADMITTED, NOT_A_PAIR, OTHER_TIME, TAPE_SHORT};

/// What a submission has to answer and to write.
pub struct Due {
    pub verdict: u8,
    pub identifier: u64,
    pub line: Option<[u8; LINE_SIZE]>,
}

/// What the ledger has to say.
pub struct Model {
    pub header: Header,
    pub rows: Vec<Row>,
}

impl Model {
    /// The ledger of a length after opening.
    pub fn opened(length: usize, caps: Caps) -> Self {
        Model {
            header: Header::opened(length, caps),
            rows: Vec::new(),
        }
    }

    /// The swap's row.
    pub fn row(&self, uti: &[u8]) -> Option<usize> {
        self.rows.iter().position(|row| row.uti() == uti)
    }

    /// The swap's status.
    pub fn status(&self, uti: &[u8]) -> u8 {
        self.row(uti).map_or(UNKNOWN, |row| self.rows[row].status)
    }

    /// The swap's last identifier.
    pub fn identifier(&self, uti: &[u8]) -> u64 {
        self.row(uti).map_or(0, |row| self.rows[row].identifier)
    }

    /// Takes a step with a tape buffer of a length. Of the rules that look at
    /// the message alone, it may break that of the matrix. The totals are
    /// counted anew, row by row.
    pub fn submit(&mut self, message: &Message, tape_length: usize) -> Due {
        let verdict = self.verdict(message, tape_length);
        if verdict != ACCEPTED {
            return Due {
                verdict,
                identifier: 0,
                line: None,
            };
        }
        let due = self.accept(message);
        self.header.count(&self.rows);
        due
    }

    fn verdict(&self, message: &Message, tape_length: usize) -> u8 {
        let (action, event) = (message.text(ACTION_TYPE), message.text(EVENT_TYPE));
        let event = message.has(EVENT_TYPE).then_some(event.as_str());
        let uti = message.value(UTI);
        let row = self.row(uti).map(|row| &self.rows[row]);
        let other_time =
            |row: &Row| row.terms[EXECUTION_IN_TERMS] != *message.value(EXECUTION_TIMESTAMP);
        let due = line_is_due(message, row.map(|row| &row.terms), &self.header.caps);
        let spent = self.header.next == IDENTIFIER_LIMIT;
        let rules = [
            (TAPE_SHORT, tape_length < LINE_SIZE),
            (NOT_A_PAIR, !matrix::is_pair(&action, event)),
            (
                NOT_ADMITTED,
                matrix::status_after(&action, self.status(uti)).is_none(),
            ),
            (
                OTHER_TIME,
                repeats_execution(&action) && row.is_some_and(other_time),
            ),
            (
                LEDGER_FULL,
                action == "NEWT" && self.header.rows == self.header.capacity,
            ),
            (IDENTIFIERS_SPENT, due && spent),
        ];
        let broken = rules.into_iter().filter(|(_, broken)| *broken);
        order::first_of(&broken.map(|(rule, _)| rule).collect::<Vec<u8>>())
    }

    fn accept(&mut self, message: &Message) -> Due {
        let action = message.text(ACTION_TYPE);
        let uti = message.value(UTI);
        let known = self.row(uti);
        let previous = known.map(|row| self.rows[row].identifier);
        let stored = known.map(|row| self.rows[row].terms);
        let due = line_is_due(message, stored.as_ref(), &self.header.caps);
        let row = known.unwrap_or_else(|| self.add_row(uti));
        let next = self.header.next;
        let row = &mut self.rows[row];
        if known.is_some() {
            row.status = matrix::status_after(&action, row.status).expect("the step was admitted");
        }
        if is_full(&action) {
            row.terms = terms_of(message, &self.header.caps);
        }
        if !due {
            return Due {
                verdict: ACCEPTED,
                identifier: 0,
                line: None,
            };
        }
        row.identifier = next;
        self.header.next += 1;
        Due {
            verdict: ACCEPTED,
            identifier: next,
            line: Some(line_of(message, next, previous, &row.terms)),
        }
    }

    fn add_row(&mut self, uti: &[u8]) -> usize {
        self.rows.push(Row::new(uti, 0, [b' '; TERMS_SIZE]));
        self.rows.len() - 1
    }
}

/// A message for the next step: most often one that the swap's status admits.
pub fn next_message(random: &mut Random, model: &Model, utis: &[Vec<u8>]) -> Message {
    let uti = random.pick(utis);
    let status = model.status(uti);
    let action = next_action(random, status);
    let mut message = match model.row(uti) {
        Some(row) => about_known(random, action, &model.rows[row], &model.header.caps),
        None => sound::message(random, action, uti),
    };
    if random.once_in(12) {
        set_any_event(random, &mut message);
    }
    message
}

/// A message about a swap that has a row. One full message in three shows the
/// stored terms.
fn about_known(random: &mut Random, action: &str, row: &Row, caps: &Caps) -> Message {
    if is_full(action) && random.once_in(3) {
        return showing(random, action, row.uti(), &row.terms, caps);
    }
    let mut message = sound::message(random, action, row.uti());
    repeat_execution(random, &mut message, action, row);
    message
}

fn next_action(random: &mut Random, status: u8) -> &'static str {
    let admitted: Vec<&str> = ACTIONS
        .into_iter()
        .filter(|action| matrix::status_after(action, status).is_some())
        .collect();
    if admitted.is_empty() || random.once_in(6) {
        return ACTIONS[random.below(ACTIONS.len())];
    }
    // Few swaps are ported, since nothing follows.
    match *random.pick(&admitted) {
        "PRTO" if !random.once_in(4) => "MODI",
        action => action,
    }
}

/// Repeats the stored execution time where the action has to, most often.
fn repeat_execution(random: &mut Random, message: &mut Message, action: &str, row: &Row) {
    let repeats = repeats_execution(action) && !random.once_in(12);
    if repeats || (action == "CORR" && random.once_in(2)) {
        sound::set_execution(random, message, &row.terms[EXECUTION_IN_TERMS]);
    }
}

/// Sets any event of the matrix, another of four capitals, or none.
fn set_any_event(random: &mut Random, message: &mut Message) {
    match random.below(EVENTS.len() + 2) {
        0 => _ = message.remove(EVENT_TYPE),
        1 => _ = message.set(EVENT_TYPE, random.text(WORD_SIZE, values::CAPITALS)),
        n => _ = message.set(EVENT_TYPE, EVENTS[n - 2]),
    }
}
