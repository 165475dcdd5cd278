//! How long the core takes, beside the checker.
//!
//! `bench measure [PATTERN]` compares and measures the lines whose name has
//! the pattern in it, `bench check [PATTERN]` only compares them, on fewer
//! messages. `bench repeat SIDE PASSES PATTERN` runs one side of the first
//! such line of submissions or of totals, for a tool that counts instructions,
//! and tells how many there were.

mod days;
mod due;
mod faults;
mod kinds;
mod ledgers;
mod line;
mod lines;
mod messages;
mod mixed;
mod search;
mod table;
mod timing;
mod totals;
mod utis;

use std::process::ExitCode;

const USAGE: &str = "bench measure [PATTERN] | check [PATTERN] | repeat SIDE PASSES PATTERN";

fn main() -> ExitCode {
    let arguments: Vec<String> = std::env::args().skip(1).collect();
    let arguments: Vec<&str> = arguments.iter().map(String::as_str).collect();
    let done = match arguments.as_slice() {
        ["measure"] => run(Mode::Measure, ""),
        ["measure", pattern] => run(Mode::Measure, pattern),
        ["check"] => run(Mode::Check, ""),
        ["check", pattern] => run(Mode::Check, pattern),
        ["repeat", side, passes, pattern] => repeat(side, passes, pattern),
        _ => Err(USAGE.to_string()),
    };
    match done {
        Ok(()) => ExitCode::SUCCESS,
        Err(fault) => {
            eprintln!("bench: {fault}");
            ExitCode::FAILURE
        }
    }
}

#[derive(Clone, Copy, PartialEq, Eq)]
enum Mode {
    Measure,
    Check,
}

/// Compares, and perhaps measures, the lines that have the pattern in their
/// name.
fn run(mode: Mode, pattern: &str) -> Result<(), String> {
    let lines = lines_with(pattern);
    let mut searches = search::Plan::all();
    searches.retain(|plan| plan.name().contains(pattern));
    let totals = totals_with(pattern);
    let day = days::NAME.contains(pattern);
    if lines.is_empty() && searches.is_empty() && totals.is_empty() && !day {
        return Err(format!("no line has '{pattern}' in its name"));
    }
    match mode {
        Mode::Measure => {
            lines::tell(&lines)?;
            search::tell(&searches)?;
            totals::tell(&totals)?;
            if day {
                days::tell()?;
            }
        }
        Mode::Check => {
            lines::check(&lines)?;
            search::check(&searches)?;
            totals::check(&totals)?;
            if day {
                days::check()?;
            }
        }
    }
    Ok(())
}

fn lines_with(pattern: &str) -> Vec<lines::Plan> {
    let mut lines = lines::Plan::all();
    lines.retain(|plan| plan.name().contains(pattern));
    lines
}

fn totals_with(pattern: &str) -> Vec<totals::Plan> {
    let mut totals = totals::Plan::all();
    totals.retain(|plan| plan.name().contains(pattern));
    totals
}

fn repeat(side: &str, passes: &str, pattern: &str) -> Result<(), String> {
    let passes = passes.parse().map_err(|_| USAGE.to_string())?;
    let (lines, totals) = (lines_with(pattern), totals_with(pattern));
    let made = match (lines.first(), totals.first()) {
        (Some(line), _) => lines::repeat(line, side, passes)?,
        (None, Some(question)) => totals::repeat(question, side, passes)?,
        (None, None) => return Err(format!("no line has '{pattern}' in its name")),
    };
    println!("{made}");
    Ok(())
}
