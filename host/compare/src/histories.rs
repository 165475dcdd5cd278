//! Demand 3: histories, their tapes, and the premises under which two tapes
//! are equal.

use crate::compared::Compared;
use crate::layout::{Caps, LINE_SIZE, TERMS_SIZE};
use crate::lists::{ACTION_TYPE, EVENT_TIMESTAMP, EVENT_TYPE, UTI};
use crate::matrix::{can_write_line, is_full};
use crate::message::Message;
use crate::terms::terms_of;
use sdr::Totals;

/// One submission: the message and the tape buffer before it.
#[derive(Clone)]
pub struct Call {
    pub message: Vec<u8>,
    pub tape: Vec<u8>,
}

/// A list of submissions and the ledger on which it starts.
#[derive(Clone)]
pub struct History {
    /// The ledger's bytes before opening.
    pub ledger: Vec<u8>,
    pub caps: Caps,
    /// Bytes written over the opened ledger before the first submission, with
    /// their place; empty in a history that starts as specified.
    pub tampering: (usize, Vec<u8>),
    pub calls: Vec<Call>,
}

/// A history as the premises see it, and its tape.
pub struct Run {
    /// Whether opening answered 0 and nothing else wrote before the first
    /// submission.
    pub fresh: bool,
    pub caps: Caps,
    pub messages: Vec<Vec<u8>>,
    pub verdicts: Vec<u8>,
    /// The identifiers that were answered; 0 where no line was written.
    pub identifiers: Vec<u64>,
    /// A line's bytes as each submission left them, over accepted messages
    /// that wrote a line.
    pub tape: Vec<u8>,
    /// What the totals question answers in the end.
    pub totals: Totals,
}

/// Submits all messages of a history.
pub fn run(compared: &mut Compared, history: &History) -> Run {
    compared.set_ledger(&history.ledger);
    let opened = compared.open(&history.caps).verdict;
    let fresh = opened == 0 && !tamper(compared, &history.tampering);
    let mut run = Run {
        fresh,
        caps: history.caps,
        messages: Vec::new(),
        verdicts: Vec::new(),
        identifiers: Vec::new(),
        tape: Vec::new(),
        totals: Totals::default(),
    };
    for call in &history.calls {
        compared.set_tape(&call.tape);
        let answer = compared.submit(&call.message);
        run.messages.push(call.message.clone());
        run.verdicts.push(answer.verdict);
        run.identifiers.push(answer.identifier);
        if answer.verdict == 0 && answer.identifier != 0 {
            run.tape.extend(&compared.tape()[..LINE_SIZE]);
        }
    }
    run.totals = compared.totals();
    run
}

/// Writes over the opened ledger and says whether that changed anything.
fn tamper(compared: &mut Compared, tampering: &(usize, Vec<u8>)) -> bool {
    let (at, bytes) = tampering;
    let mut ledger = compared.ledger().to_vec();
    ledger[*at..at + bytes.len()].copy_from_slice(bytes);
    let changed = ledger != compared.ledger();
    compared.set_ledger(&ledger);
    changed
}

/// A premise of demand 3.
#[derive(Clone, Copy, Debug, PartialEq, Eq)]
pub enum Premise {
    /// Each list starts on a ledger that opening answered with 0.
    Opening,
    /// The caps are the same.
    Caps,
    /// The lists are of equal length.
    Length,
    /// The verdict numbers are equal at each place.
    Verdict,
    /// Accepted messages have equal actions.
    Action,
    /// Accepted messages have equal events, or none.
    Event,
    /// Accepted messages have equal event times.
    EventTime,
    /// Accepted messages have equal masked terms.
    Terms,
    /// Two accepted messages name the same swap exactly when their partners
    /// do.
    Swap,
}

/// The premises that two runs break; none where demand 3 applies to them.
pub fn broken_premises(first: &Run, second: &Run) -> Vec<Premise> {
    let places = both_accepted(first, second);
    let equal = |code: u8| {
        let same = |&place: &usize| first.value(place, code) == second.value(place, code);
        places.iter().all(same)
    };
    let terms =
        |&place: &usize| first.terms(place, &first.caps) == second.terms(place, &first.caps);
    let shorter = first.verdicts.len().min(second.verdicts.len());
    let premises = [
        (Premise::Opening, first.fresh && second.fresh),
        (Premise::Caps, first.caps == second.caps),
        (
            Premise::Length,
            first.verdicts.len() == second.verdicts.len(),
        ),
        (
            Premise::Verdict,
            first.verdicts[..shorter] == second.verdicts[..shorter],
        ),
        (Premise::Action, equal(ACTION_TYPE)),
        (Premise::Event, equal(EVENT_TYPE)),
        (Premise::EventTime, equal(EVENT_TIMESTAMP)),
        (Premise::Terms, places.iter().all(terms)),
        (Premise::Swap, swaps_alike(first, second, &places)),
    ];
    let broken = premises.into_iter().filter(|(_, holds)| !holds);
    broken.map(|(premise, _)| premise).collect()
}

/// The places at which both lists have an accepted message.
fn both_accepted(first: &Run, second: &Run) -> Vec<usize> {
    let pairs = first.verdicts.iter().zip(&second.verdicts).enumerate();
    let accepted = pairs.filter(|(_, verdicts)| *verdicts == (&0, &0));
    accepted.map(|(place, _)| place).collect()
}

fn swaps_alike(first: &Run, second: &Run, places: &[usize]) -> bool {
    let same = |run: &Run, a: usize, b: usize| run.value(a, UTI) == run.value(b, UTI);
    places.iter().enumerate().all(|(n, &a)| {
        let later = &places[n + 1..];
        later
            .iter()
            .all(|&b| same(first, a, b) == same(second, a, b))
    })
}

impl Run {
    /// The message at a place where one was accepted.
    pub fn message(&self, place: usize) -> Message {
        Message::decode(&self.messages[place]).expect("an accepted message's layout is right")
    }

    fn value(&self, place: usize, code: u8) -> Option<Vec<u8>> {
        self.message(place).get(code).map(<[u8]>::to_vec)
    }

    /// The masked terms of an accepted message: a full one's own; those of the
    /// swap's last accepted full message earlier in the list for TERM and
    /// EROR; none for others.
    fn terms(&self, place: usize, caps: &Caps) -> Option<[u8; TERMS_SIZE]> {
        let message = self.message(place);
        let action = message.text(ACTION_TYPE);
        if is_full(&action) {
            Some(terms_of(&message, caps))
        } else if can_write_line(&action) {
            self.stored_terms(place, message.value(UTI), caps)
        } else {
            None
        }
    }

    fn stored_terms(&self, place: usize, uti: &[u8], caps: &Caps) -> Option<[u8; TERMS_SIZE]> {
        let accepted = (0..place).rev().filter(|&n| self.verdicts[n] == 0);
        let of_swap =
            |message: &Message| message.value(UTI) == uti && is_full(&message.text(ACTION_TYPE));
        let mut full = accepted.map(|n| self.message(n)).filter(of_swap);
        full.next().map(|message| terms_of(&message, caps))
    }
}
