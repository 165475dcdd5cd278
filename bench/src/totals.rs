//! The totals question beside a scan of all rows in use, which is how a screen
//! counts without it.

use crate::kinds::SHAPE;
use crate::ledgers::Ledger;
use crate::table;
use crate::timing::{measure, Figures, Run};
use compare::judge::{Checker, Core, Judge};
use compare::layout::{u32_at, ROWS_IN_HEADER, STATUS_IN_ROW, TOTALS};
use sdr::{Answer, HEADER_SIZE, LARGEST_CAPACITY, LIVE, ROW_SIZE};
use std::hint::black_box;
use std::time::{Duration, Instant};

const ROWS: [usize; 3] = [400, 10_000, LARGEST_CAPACITY];

/// So many rows in use.
#[derive(Clone, Copy)]
pub struct Plan {
    rows: usize,
}

impl Plan {
    /// All questions, in the order of the table.
    pub fn all() -> Vec<Plan> {
        ROWS.map(|rows| Plan { rows }).to_vec()
    }

    pub fn name(&self) -> String {
        format!("totals, {} rows", table::count(self.rows))
    }

    fn question(&self) -> Question {
        Question {
            ledger: Ledger::with_rows(self.rows, SHAPE),
        }
    }

    /// The question, on which core, checker and scan agree.
    fn compared(&self) -> Result<Question, String> {
        let question = self.question();
        let told = |fault| format!("{}: {fault}", self.name());
        question.compare().map_err(told)?;
        Ok(question)
    }
}

/// A ledger, which no question changes.
struct Question {
    ledger: Ledger,
}

impl Question {
    /// Core and checker, then the scan, in nanoseconds a question. The scan is
    /// measured by itself: it takes far longer and needs fewer passes.
    fn measure(&mut self) -> Vec<Figures> {
        let asked: [Run<Question>; 2] = [
            |question, passes| question.run(passes, |ledger, totals| Core.totals(ledger, totals)),
            |question, passes| {
                question.run(passes, |ledger, totals| Checker.totals(ledger, totals))
            },
        ];
        let counted: [Run<Question>; 1] = [|question, passes| question.run(passes, scan)];
        let mut figures = measure(self, &asked, 1);
        figures.extend(measure(self, &counted, 1));
        figures
    }

    /// One run; a first question, which is not timed, brings the ledger near.
    fn run(&self, passes: usize, ask: impl Fn(&[u8], &mut [u32; TOTALS]) -> Answer) -> Duration {
        let mut totals = [0; TOTALS];
        let mut pass = || ask(black_box(&self.ledger.bytes), black_box(&mut totals));
        black_box(pass());
        let start = Instant::now();
        for _ in 0..passes {
            black_box(pass());
        }
        start.elapsed()
    }

    /// Holds the three to each other. The scan counts every row.
    fn compare(&self) -> Result<(), String> {
        let bytes = &self.ledger.bytes;
        let mut totals = [[0; TOTALS]; 3];
        let [core, checker, counted] = &mut totals;
        let answers = [
            Core.totals(bytes, core),
            Checker.totals(bytes, checker),
            scan(bytes, counted),
        ];
        if answers != [Answer::default(); 3] || totals != [totals[2]; 3] {
            return Err(format!("{answers:?} with {totals:?}"));
        }
        Ok(())
    }
}

/// The scan: the status of every row in use. It judges neither header nor row.
fn scan(ledger: &[u8], totals: &mut [u32; TOTALS]) -> Answer {
    let rows = u32_at(ledger, ROWS_IN_HEADER);
    let used = &ledger[HEADER_SIZE..][..rows as usize * ROW_SIZE];
    totals.fill(0);
    for row in used.chunks_exact(ROW_SIZE) {
        totals[usize::from(row[STATUS_IN_ROW] - LIVE)] += 1;
    }
    Answer::default()
}

/// Compares these questions and prints what was compared.
pub fn check(plans: &[Plan]) -> Result<(), String> {
    for plan in plans {
        plan.compared()?;
        println!("{}: totals alike", plan.name());
    }
    Ok(())
}

/// Compares and measures these questions and prints their table.
pub fn tell(plans: &[Plan]) -> Result<(), String> {
    if plans.is_empty() {
        return Ok(());
    }
    table::head(
        "Totals, nanoseconds a question",
        &[
            "rows in use",
            "core",
            "checker",
            "scan",
            "core/checker",
            "scan/core",
        ],
    );
    for plan in plans {
        let figures = plan.compared()?.measure();
        table::line(&[
            table::count(plan.rows),
            table::nanoseconds(figures[0]),
            table::nanoseconds(figures[1]),
            table::nanoseconds(figures[2]),
            table::ratio(figures[0], figures[1]),
            table::times(figures[2], figures[0]),
        ]);
    }
    Ok(())
}

/// Passes of one side, for a tool that counts instructions; answers the
/// questions.
pub fn repeat(plan: &Plan, side: &str, passes: usize) -> Result<usize, String> {
    let question = plan.question();
    match side {
        "core" => question.run(passes, |ledger, totals| Core.totals(ledger, totals)),
        "checker" => question.run(passes, |ledger, totals| Checker.totals(ledger, totals)),
        "scan" => question.run(passes, scan),
        _ => return Err(format!("no side is named {side}")),
    };
    Ok(passes)
}
