//! A whole day: the program `dayrun` beside the checker's program `checkday`.

use crate::ledgers::Ledger;
use crate::mixed::Mixed;
use crate::table;
use crate::timing::{measure, Run};
use crate::utis::Shape;
use compare::dayrun::{program, Temporary};
use compare::days::framed;
use compare::judge::{Checker, Judge};
use compare::layout::DAY_ROWS;
use sdr::LINE_SIZE;
use std::path::{Path, PathBuf};
use std::process::{Command, Stdio};
use std::time::{Duration, Instant};

/// The line's name.
pub const NAME: &str = "whole day run";

const MESSAGES: usize = 200_000;
/// The same where nothing is timed.
const FEW: usize = 4_000;
/// One message in so many about a live swap ports it. A ported swap stays so,
/// and a day about so few swaps would soon have no others.
const PORTING: usize = 400;

/// An input file and the two programs.
struct Day {
    input: Temporary,
    dayrun: PathBuf,
    checkday: PathBuf,
}

impl Day {
    fn of(messages: usize) -> Result<Day, String> {
        Ok(Day {
            input: Temporary::holding(&mixed_day(messages)?),
            dayrun: program(),
            checkday: beside_this_program("checkday")?,
        })
    }

    /// One run of a program, from its start to its end.
    fn run(&self, program: &Path) -> Duration {
        let start = Instant::now();
        let status = Command::new(program)
            .stdin(self.input.as_input())
            .stdout(Stdio::null())
            .status();
        let time = start.elapsed();
        assert!(
            status.is_ok_and(|status| status.success()),
            "{} does not end well",
            program.display()
        );
        time
    }

    /// Holds the reports of the two programs to each other.
    fn compare(&self) -> Result<(), String> {
        if self.report(&self.dayrun)? != self.report(&self.checkday)? {
            return Err(format!("{NAME}: the reports differ"));
        }
        Ok(())
    }

    fn report(&self, program: &Path) -> Result<Vec<u8>, String> {
        let told = |fault| format!("{}: {fault}", program.display());
        let output = Command::new(program)
            .stdin(self.input.as_input())
            .output()
            .map_err(|fault| told(fault.to_string()))?;
        if !output.status.success() {
            return Err(told(output.status.to_string()));
        }
        Ok(output.stdout)
    }
}

/// The bytes of a mixed day that starts on an empty ledger. The checker keeps
/// the ledger, so that later messages are about the swaps of earlier ones.
fn mixed_day(messages: usize) -> Result<Vec<u8>, String> {
    let mut ledger = Ledger::opened(DAY_ROWS);
    let mut day = Mixed::about(&ledger, Shape::MixedLengths, PORTING);
    let mut bytes = Vec::new();
    for number in 1..=messages {
        let sent = day.next(&ledger);
        let answer = Checker.submit(&mut ledger.bytes, &mut [0; LINE_SIZE], &sent.message);
        if !sent.due.is_met(answer) {
            let due = sent.due;
            return Err(format!("message {number}: {answer:?}, due is {due}"));
        }
        bytes.extend(framed(&sent.message));
    }
    Ok(bytes)
}

/// A program that cargo has built together with this one.
fn beside_this_program(name: &str) -> Result<PathBuf, String> {
    let own = std::env::current_exe().map_err(|fault| fault.to_string())?;
    let path = own.with_file_name(name);
    if !path.is_file() {
        return Err(format!("{} is missing", path.display()));
    }
    Ok(path)
}

/// Compares the reports of a short day and prints what was compared.
pub fn check() -> Result<(), String> {
    Day::of(FEW)?.compare()?;
    println!("{NAME}: reports of {} messages alike", table::count(FEW));
    Ok(())
}

/// Compares and measures the whole day and prints its table.
pub fn tell() -> Result<(), String> {
    let mut day = Day::of(MESSAGES)?;
    day.compare()?;
    let sides: [Run<Day>; 2] = [
        |day, _| day.run(&day.dayrun),
        |day, _| day.run(&day.checkday),
    ];
    let figures = measure(&mut day, &sides, 1);
    table::head(
        "Whole day run, milliseconds",
        &["messages", "dayrun", "checkday", "dayrun/checkday"],
    );
    table::line(&[
        table::count(MESSAGES),
        table::milliseconds(figures[0]),
        table::milliseconds(figures[1]),
        table::ratio(figures[0], figures[1]),
    ]);
    Ok(())
}
