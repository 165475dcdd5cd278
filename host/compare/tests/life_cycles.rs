//! Generated life cycles of many swaps on ledgers of several sizes. The core
//! is held to the checker and both to a model of the ledger.

use compare::compared::Compared;
use compare::cycles::{next_message, Model};
use compare::layout::{self, ledger_size, DAY_ROWS, IDENTIFIER_LIMIT, LARGEST_CAPACITY};
use compare::layout::{LINE_SIZE, ROW_SIZE, SHORTEST_LEDGER};
use compare::lists::{statuses, ACTIONS, ACTION_TYPE, EVENT_TYPE};
use compare::matrix;
use compare::message::{described, Message};
use compare::random::Random;
use compare::tally::Tally;
use compare::{submissions, values};
use sdr::Answer;
use std::collections::{BTreeMap, BTreeSet};

/// Lengths of ledgers, from one row to those of a day.
const LENGTHS: [usize; 9] = [
    SHORTEST_LEDGER,
    ledger_size(2) - 1,
    ledger_size(2),
    ledger_size(3) + 17,
    ledger_size(9) - 1,
    ledger_size(20),
    ledger_size(60) + 1,
    ledger_size(150),
    ledger_size(DAY_ROWS),
];

/// What the life cycles have met.
#[derive(Default)]
struct Met {
    tally: Tally,
    pairs: BTreeSet<(String, String)>,
    steps: BTreeSet<(String, u8, bool)>,
    /// How many messages of an action were accepted, with a line or without.
    accepted: BTreeMap<(String, bool), u64>,
}

/// A ledger in use, with its model.
struct Ledger {
    compared: Compared,
    model: Model,
    utis: Vec<Vec<u8>>,
    before: Vec<u8>,
}

impl Ledger {
    fn open(random: &mut Random, length: usize, swaps: usize) -> Ledger {
        let caps = values::caps(random);
        let before = random.bytes(length);
        let mut compared = Compared::new();
        compared.set_ledger(&before);
        assert_eq!(compared.open(&caps).verdict, 0);
        let ledger = Ledger {
            compared,
            model: Model::opened(length, caps),
            utis: values::utis(random, swaps),
            before,
        };
        ledger.check_ledger();
        ledger
    }

    /// Submits one message, holds both to the model, asks two statuses and the
    /// totals.
    fn step(&mut self, random: &mut Random, met: &mut Met) {
        let message = next_message(random, &self.model, &self.utis);
        let tape = tape_before(random);
        let status = self.model.status(message.value(1));
        self.compared.set_tape(&tape);
        let answer = self.compared.submit(&message.encode());
        let due = self.model.submit(&message, tape.len());
        let text = described(&message.encode());
        assert_eq!(answer.verdict, due.verdict, "{text}");
        assert_eq!(answer.identifier, due.identifier, "{text}");
        assert_eq!((answer.status, answer.element), (0, 0));
        match due.line {
            Some(line) => assert_eq!(self.compared.tape()[..LINE_SIZE], line),
            None => assert_eq!(self.compared.tape(), tape),
        }
        self.check_row(message.value(1));
        self.ask(message.value(1));
        let other = random.pick(&self.utis).clone();
        self.ask(&other);
        let totals = self.compared.totals();
        assert_eq!(
            (totals.verdict, totals.totals),
            (0, self.model.header.totals)
        );
        met.note(&message, status, answer);
    }

    /// The swap's row and the header are as the model says.
    fn check_row(&self, uti: &[u8]) {
        let ledger = self.compared.ledger();
        assert_eq!(ledger[..layout::HEADER_SIZE], self.model.header.encode());
        if let Some(row) = self.model.row(uti) {
            assert_eq!(
                ledger[layout::row_range(row)],
                self.model.rows[row].encode()
            );
        }
    }

    fn ask(&mut self, uti: &[u8]) {
        let answer = self.compared.status(uti);
        assert_eq!((answer.verdict, answer.element), (0, 0));
        assert_eq!(answer.status, self.model.status(uti));
        assert_eq!(answer.identifier, self.model.identifier(uti));
    }

    /// Every byte of the ledger is as the model says, or as before opening.
    fn check_ledger(&self) {
        let mut due = self.before.clone();
        layout::write(&mut due, &self.model.header, &self.model.rows);
        assert!(self.compared.ledger() == due);
    }
}

impl Met {
    fn note(&mut self, message: &Message, status: u8, answer: Answer) {
        let (action, event) = (message.text(ACTION_TYPE), message.text(EVENT_TYPE));
        let verdict = answer.verdict;
        if verdict == 0 {
            self.pairs.insert((action.clone(), event));
            let key = (action.clone(), answer.identifier != 0);
            *self.accepted.entry(key).or_default() += 1;
        }
        if verdict == 0 || verdict == sdr::NOT_ADMITTED {
            self.steps.insert((action, status, verdict == 0));
        }
    }

    /// How many messages of an action were accepted and wrote a line, or none.
    fn accepted(&self, action: &str, line: bool) -> u64 {
        let key = (action.to_string(), line);
        self.accepted.get(&key).copied().unwrap_or(0)
    }

    /// Every pair of the matrix was accepted, and every step taken or refused
    /// as the statuses say.
    fn check(&self) {
        let pairs = ACTIONS.iter().flat_map(|action| {
            let events = matrix::events_of(action).into_iter();
            events.map(|event| (action.to_string(), event.unwrap_or("").to_string()))
        });
        assert_eq!(self.pairs, pairs.collect());
        let steps = ACTIONS.iter().flat_map(|action| {
            let step = |status| {
                (
                    action.to_string(),
                    status,
                    matrix::status_after(action, status).is_some(),
                )
            };
            statuses().map(step)
        });
        assert_eq!(self.steps, steps.collect());
        for action in ACTIONS {
            let (with, without) = (self.accepted(action, true), self.accepted(action, false));
            match action {
                "PRTO" => assert!(with == 0 && without > 0),
                // One MODI in three repeats the stored terms.
                "MODI" => assert!(with > without && without > with / 5),
                _ => assert!(with > 0 && without == 0, "{action}"),
            }
        }
    }
}

/// A tape buffer with old bytes, seldom too short.
fn tape_before(random: &mut Random) -> Vec<u8> {
    let length = values::any_tape_length(random);
    random.bytes(length)
}

#[test]
fn life_cycles_on_ledgers_of_several_sizes() {
    let mut random = Random::for_test(20_240_301);
    let mut met = Met::default();
    let wanted = submissions(90_000);
    let lives = 600;
    while met.tally.submissions < wanted {
        let length = *random.pick(&LENGTHS);
        let swaps = (layout::capacity(length) + 2).min(90);
        let mut ledger = Ledger::open(&mut random, length, swaps);
        for _ in 0..lives {
            ledger.step(&mut random, &mut met);
        }
        ledger.check_ledger();
        met.tally.add(&ledger.compared.tally);
    }
    println!("life cycles: {}", met.tally);
    met.check();
    for verdict in [0, 4, 10, 15, 16, 17] {
        assert!(met.tally.verdict(verdict) > 0, "verdict {verdict}");
    }
}

#[test]
fn a_ledger_of_a_day_fills_up() {
    let mut random = Random::for_test(20_240_302);
    let mut met = Met::default();
    let mut ledger = Ledger::open(&mut random, ledger_size(DAY_ROWS), DAY_ROWS + 30);
    for _ in 0..6_000 {
        ledger.step(&mut random, &mut met);
    }
    ledger.check_ledger();
    println!("{DAY_ROWS} rows: {}", ledger.compared.tally);
    assert_eq!(ledger.model.rows.len(), DAY_ROWS);
    assert!(ledger.compared.tally.verdict(sdr::LEDGER_FULL) > 0);
}

#[test]
fn a_ledger_longer_than_the_largest_capacity() {
    let mut random = Random::for_test(20_240_303);
    let mut met = Met::default();
    let length = ledger_size(LARGEST_CAPACITY) + 7 * ROW_SIZE + 3;
    let mut ledger = Ledger::open(&mut random, length, 12);
    assert_eq!(ledger.model.header.capacity as usize, LARGEST_CAPACITY);
    for _ in 0..60 {
        ledger.step(&mut random, &mut met);
    }
    ledger.check_ledger();
    println!("longest ledger: {}", ledger.compared.tally);
    assert!(ledger.compared.tally.verdict(0) > 0);
}

#[test]
fn identifiers_run_out() {
    let mut random = Random::for_test(20_240_304);
    let mut met = Met::default();
    let mut ledger = Ledger::open(&mut random, ledger_size(30), 40);
    ledger.model.header.next = IDENTIFIER_LIMIT - 100;
    ledger.before[..layout::HEADER_SIZE].copy_from_slice(&ledger.model.header.encode());
    ledger.compared.set_ledger(&ledger.before);
    while ledger.model.header.next < IDENTIFIER_LIMIT {
        ledger.step(&mut random, &mut met);
    }
    // Nothing but PRTO and MODI without a line is accepted then.
    let mut spent = Met::default();
    for _ in 0..1_300 {
        ledger.step(&mut random, &mut spent);
    }
    ledger.check_ledger();
    println!("spent identifiers: {}", ledger.compared.tally);
    assert_eq!(ledger.model.header.next, IDENTIFIER_LIMIT);
    assert!(ledger.compared.tally.verdict(sdr::IDENTIFIERS_SPENT) > 0);
    let lines = met.accepted.iter().filter(|((_, line), _)| *line);
    assert_eq!(lines.map(|(_, count)| count).sum::<u64>(), 100);
    let expected = [("MODI".to_string(), false), ("PRTO".to_string(), false)];
    assert!(spent.accepted.keys().eq(&expected), "{:?}", spent.accepted);
}
