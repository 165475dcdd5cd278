//! The table of submissions: every kind with every number of rows.

use crate::kinds::{Kind, ROWS, SHAPE};
use crate::ledgers::Ledger;
use crate::line::Line;
use crate::table;
use compare::judge::{Checker, Core};

/// The messages of a line, and those of a mixed day.
const MESSAGES: usize = 64;
const MESSAGES_OF_DAY: usize = 512;
/// The same where nothing is timed.
const FEW: usize = 12;
const FEW_OF_DAY: usize = 160;

/// How many messages a line has.
#[derive(Clone, Copy, PartialEq, Eq)]
enum Extent {
    Whole,
    Few,
}

/// What a line is to be made of.
#[derive(Clone, Copy)]
pub struct Plan {
    kind: Kind,
    rows: usize,
}

impl Plan {
    /// All lines, in the order of the table.
    pub fn all() -> Vec<Plan> {
        let of_kind = |kind: Kind| {
            let sizes = ROWS.into_iter().filter_map(move |size| kind.rows(size));
            sizes.map(move |rows| Plan { kind, rows })
        };
        Kind::ALL.into_iter().flat_map(of_kind).collect()
    }

    pub fn name(&self) -> String {
        format!("{}, {} rows", self.kind.name(), table::count(self.rows))
    }

    fn line(&self, extent: Extent) -> Line {
        let ledger = Ledger::with_rows(self.rows, SHAPE);
        let cases = self.kind.cases(&ledger, self.messages(extent));
        Line::new(ledger, cases)
    }

    fn messages(&self, extent: Extent) -> usize {
        match (self.kind, extent) {
            (Kind::MixedDay, Extent::Whole) => MESSAGES_OF_DAY,
            (Kind::MixedDay, Extent::Few) => FEW_OF_DAY,
            (_, Extent::Whole) => MESSAGES,
            (_, Extent::Few) => FEW,
        }
    }

    /// The line, on all of whose messages core and checker agree.
    fn compared(&self, extent: Extent) -> Result<Line, String> {
        let mut line = self.line(extent);
        let told = |fault| format!("{}: {fault}", self.name());
        line.compare().map_err(told)?;
        Ok(line)
    }
}

/// Compares these lines and prints what was compared.
pub fn check(plans: &[Plan]) -> Result<(), String> {
    for plan in plans {
        let line = plan.compared(Extent::Few)?;
        println!("{}: messages alike: {}", plan.name(), line.described());
    }
    Ok(())
}

/// Compares and measures these lines and prints their table.
pub fn tell(plans: &[Plan]) -> Result<(), String> {
    if plans.is_empty() {
        return Ok(());
    }
    table::head(
        "Submissions, nanoseconds each",
        &["line", "rows in use", "core", "checker", "core/checker"],
    );
    for plan in plans {
        let figures = plan.compared(Extent::Whole)?.measure();
        table::line(&[
            plan.kind.name().to_string(),
            table::count(plan.rows),
            table::nanoseconds(figures[0]),
            table::nanoseconds(figures[1]),
            table::ratio(figures[0], figures[1]),
        ]);
    }
    Ok(())
}

/// Passes of one side over one line, for a tool that counts instructions;
/// answers the submissions.
pub fn repeat(plan: &Plan, side: &str, passes: usize) -> Result<usize, String> {
    let mut line = plan.line(Extent::Whole);
    match side {
        "core" => line.run(&Core, passes),
        "checker" => line.run(&Checker, passes),
        _ => return Err(format!("no side is named {side}")),
    };
    Ok(passes * line.messages())
}
