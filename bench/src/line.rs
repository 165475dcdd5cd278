//! One line of the table: the same messages and the same buffers, lent to the
//! core and to the checker.

use crate::due::Due;
use crate::kinds::Case;
use crate::ledgers::Ledger;
use crate::timing::{measure, Figures, Run};
use compare::judge::{Checker, Core, Judge};
use sdr::{ledger_size, Answer, LINE_SIZE};
use std::hint::black_box;
use std::time::{Duration, Instant};

/// The buffers that a side is lent.
#[derive(Clone)]
struct Lent {
    ledger: Vec<u8>,
    tape: [u8; LINE_SIZE],
}

impl Lent {
    fn submit(&mut self, judge: &impl Judge, message: &[u8]) -> Answer {
        judge.submit(&mut self.ledger, &mut self.tape, message)
    }

    fn put_back(&mut self, case: &Case, saved: &Ledger) {
        case.put_back.copy(&mut self.ledger, &saved.bytes);
    }
}

/// The messages of a line, the ledger as it was saved, and the buffers.
pub struct Line {
    cases: Vec<Case>,
    saved: Ledger,
    lent: Lent,
}

impl Line {
    pub fn new(saved: Ledger, cases: Vec<Case>) -> Line {
        let lent = Lent {
            ledger: saved.bytes.clone(),
            tape: [0; LINE_SIZE],
        };
        Line { cases, saved, lent }
    }

    /// The messages of a pass.
    pub fn messages(&self) -> usize {
        self.cases.len()
    }

    /// How many messages the line has for each answer that is due.
    pub fn described(&self) -> String {
        let mut dues: Vec<Due> = self.cases.iter().map(|case| case.due).collect();
        dues.sort();
        let parts: Vec<String> = dues
            .chunk_by(|one, next| one == next)
            .map(|alike| format!("{} with {}", alike.len(), alike[0]))
            .collect();
        parts.join(", ")
    }

    /// Core and checker, in nanoseconds a submission.
    pub fn measure(&mut self) -> Vec<Figures> {
        let sides: [Run<Line>; 2] = [
            |line, passes| line.run(&Core, passes),
            |line, passes| line.run(&Checker, passes),
        ];
        let per_pass = self.messages();
        measure(self, &sides, per_pass)
    }

    /// One run on restored buffers; a first pass, which is not timed, brings
    /// messages and ledger near.
    pub fn run(&mut self, judge: &impl Judge, passes: usize) -> Duration {
        self.restore();
        self.pass(judge);
        let start = Instant::now();
        for _ in 0..passes {
            self.pass(judge);
        }
        start.elapsed()
    }

    fn restore(&mut self) {
        self.lent.ledger.copy_from_slice(&self.saved.bytes);
        self.lent.tape.fill(0);
    }

    fn pass(&mut self, judge: &impl Judge) {
        for case in &self.cases {
            black_box(self.lent.submit(judge, black_box(&case.message)));
            self.lent.put_back(case, &self.saved);
        }
    }

    /// Holds the core to the checker and both to what is due, on every
    /// message: answers, and every byte of ledger and tape buffer.
    pub fn compare(&mut self) -> Result<(), String> {
        self.restore();
        let mut checkers = self.lent.clone();
        for (number, case) in self.cases.iter().enumerate() {
            let answers = [
                self.lent.submit(&Core, &case.message),
                checkers.submit(&Checker, &case.message),
            ];
            let fault =
                wrong_answers(answers, case.due).or_else(|| different_bytes(&self.lent, &checkers));
            self.lent.put_back(case, &self.saved);
            checkers.put_back(case, &self.saved);
            let fault = fault.or_else(|| left_over(&self.lent, &self.saved));
            if let Some(fault) = fault {
                return Err(format!("message {number}: {fault}"));
            }
        }
        Ok(())
    }
}

fn wrong_answers([core, checker]: [Answer; 2], due: Due) -> Option<String> {
    if core != checker {
        return Some(format!(
            "the core answers {core:?}, the checker {checker:?}"
        ));
    }
    (!due.is_met(core)).then(|| format!("the answer is {core:?}, due is {due}"))
}

fn different_bytes(one: &Lent, other: &Lent) -> Option<String> {
    if one.ledger != other.ledger {
        return Some("the ledgers differ".to_string());
    }
    (one.tape != other.tape).then(|| "the tape buffers differ".to_string())
}

/// A change that was not put back. What a NEWT wrote into a free row stays;
/// nothing reads it.
fn left_over(lent: &Lent, saved: &Ledger) -> Option<String> {
    let used = ledger_size(saved.rows());
    let changed = lent.ledger[..used] != saved.bytes[..used];
    changed.then(|| "what it changed is not put back".to_string())
}
