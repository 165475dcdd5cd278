//! The row search: the status question beside a scan with C's memcmp.

use crate::ledgers::Ledger;
use crate::table;
use crate::timing::{measure, Figures, Run};
use crate::utis::Shape;
use compare::judge::{Checker, Core, Judge};
use compare::layout::{u32_at, u64_at, IDENTIFIER_IN_ROW, LENGTH_IN_ROW, ROWS_IN_HEADER};
use compare::layout::{STATUS_IN_ROW, UTI_IN_ROW};
use sdr::{Answer, HEADER_SIZE, LARGEST_CAPACITY, ROW_SIZE};
use std::ffi::{c_int, c_void};
use std::hint::black_box;
use std::time::{Duration, Instant};

const ROWS: [usize; 3] = [400, 10_000, LARGEST_CAPACITY];
/// So many different unknown swaps are asked for in turn.
const UNKNOWN: usize = 16;

extern "C" {
    fn memcmp(one: *const c_void, other: *const c_void, length: usize) -> c_int;
}

/// Which swap is asked for.
#[derive(Clone, Copy, PartialEq, Eq)]
enum Asked {
    Unknown,
    Last,
}

/// What a search is to be made of.
#[derive(Clone, Copy)]
pub struct Plan {
    shape: Shape,
    asked: Asked,
    rows: usize,
}

impl Plan {
    /// All searches, in the order of the table.
    pub fn all() -> Vec<Plan> {
        let mut plans = Vec::new();
        for shape in Shape::ALL {
            for asked in [Asked::Unknown, Asked::Last] {
                plans.extend(ROWS.map(|rows| Plan { shape, asked, rows }));
            }
        }
        plans
    }

    pub fn name(&self) -> String {
        let (swap, utis) = (self.swap(), self.shape.name());
        let rows = table::count(self.rows);
        format!("search for {swap}, {utis}, {rows} rows")
    }

    fn swap(&self) -> &'static str {
        match self.asked {
            Asked::Unknown => "an unknown swap",
            Asked::Last => "the last row's swap",
        }
    }

    fn search(&self) -> Search {
        let numbers = match self.asked {
            Asked::Unknown => self.rows..self.rows + UNKNOWN,
            Asked::Last => self.rows - 1..self.rows,
        };
        Search {
            ledger: Ledger::with_rows(self.rows, self.shape),
            utis: numbers.map(|number| self.shape.uti(number)).collect(),
        }
    }
}

/// A ledger, which no question changes, and the UTIs asked for.
struct Search {
    ledger: Ledger,
    utis: Vec<String>,
}

impl Search {
    /// Core, checker and scan, in nanoseconds a question.
    fn measure(&mut self) -> Vec<Figures> {
        let sides: [Run<Search>; 3] = [
            |search, passes| search.run(passes, |ledger, uti| Core.status(ledger, uti)),
            |search, passes| search.run(passes, |ledger, uti| Checker.status(ledger, uti)),
            |search, passes| search.run(passes, scan),
        ];
        let per_pass = self.utis.len();
        measure(self, &sides, per_pass)
    }

    fn run(&self, passes: usize, ask: impl Fn(&[u8], &[u8]) -> Answer) -> Duration {
        self.pass(&ask);
        let start = Instant::now();
        for _ in 0..passes {
            self.pass(&ask);
        }
        start.elapsed()
    }

    fn pass(&self, ask: &impl Fn(&[u8], &[u8]) -> Answer) {
        for uti in &self.utis {
            black_box(ask(
                black_box(&self.ledger.bytes),
                black_box(uti.as_bytes()),
            ));
        }
    }

    /// Holds the three to each other, and to what the plan says.
    fn compare(&self, asked: Asked) -> Result<(), String> {
        let bytes = &self.ledger.bytes;
        let due = match asked {
            Asked::Unknown => Answer::default(),
            Asked::Last => Answer {
                status: sdr::LIVE,
                identifier: self.ledger.rows() as u64,
                ..Answer::default()
            },
        };
        for uti in &self.utis {
            let uti = uti.as_bytes();
            let answers = [
                Core.status(bytes, uti),
                Checker.status(bytes, uti),
                scan(bytes, uti),
            ];
            if answers != [due; 3] {
                return Err(format!("{answers:?}, due is {due:?}"));
            }
        }
        Ok(())
    }
}

/// The scan: from the first used row to the one that has this UTI. It judges
/// neither the header nor the UTI nor the row.
fn scan(ledger: &[u8], uti: &[u8]) -> Answer {
    let rows = u32_at(ledger, ROWS_IN_HEADER);
    let used = &ledger[HEADER_SIZE..][..rows as usize * ROW_SIZE];
    let mut found = used.chunks_exact(ROW_SIZE).filter(|row| is_of(row, uti));
    found.next().map_or(Answer::default(), |row| Answer {
        status: row[STATUS_IN_ROW],
        identifier: u64_at(row, IDENTIFIER_IN_ROW),
        ..Answer::default()
    })
}

fn is_of(row: &[u8], uti: &[u8]) -> bool {
    let stored = &row[UTI_IN_ROW];
    if usize::from(row[LENGTH_IN_ROW]) != uti.len() || uti.len() > stored.len() {
        return false;
    }
    // SAFETY: both have at least as many bytes as the UTI is long.
    unsafe { memcmp(stored.as_ptr().cast(), uti.as_ptr().cast(), uti.len()) == 0 }
}

/// Compares these searches and prints what was compared.
pub fn check(plans: &[Plan]) -> Result<(), String> {
    for plan in plans {
        let search = plan.search();
        compared(plan, &search)?;
        println!("{}: questions alike: {}", plan.name(), search.utis.len());
    }
    Ok(())
}

/// Compares and measures these searches and prints their table.
pub fn tell(plans: &[Plan]) -> Result<(), String> {
    if plans.is_empty() {
        return Ok(());
    }
    table::head(
        "Row search, nanoseconds a status question",
        &[
            "asked for",
            "UTIs",
            "rows in use",
            "core",
            "checker",
            "memcmp scan",
            "core/checker",
            "core/scan",
        ],
    );
    for plan in plans {
        let mut search = plan.search();
        compared(plan, &search)?;
        let figures = search.measure();
        table::line(&[
            plan.swap().to_string(),
            plan.shape.name().to_string(),
            table::count(plan.rows),
            table::nanoseconds(figures[0]),
            table::nanoseconds(figures[1]),
            table::nanoseconds(figures[2]),
            table::ratio(figures[0], figures[1]),
            table::ratio(figures[0], figures[2]),
        ]);
    }
    Ok(())
}

fn compared(plan: &Plan, search: &Search) -> Result<(), String> {
    search
        .compare(plan.asked)
        .map_err(|fault| format!("{}: {fault}", plan.name()))
}
