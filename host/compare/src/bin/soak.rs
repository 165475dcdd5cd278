//! Compares core and checker on a mix of everything for as long as asked.
//!
//! Arguments: the number of submissions and the seed. Exit status 1 says that
//! the two differ; the report then tells where.

use compare::judge::WATCHED;
use compare::mix::Mix;
use std::process::ExitCode;

/// After so many submissions a line of progress is due.
const PROGRESS: u64 = 1_000_000;

fn main() -> ExitCode {
    let arguments: Vec<u64> = std::env::args()
        .skip(1)
        .flat_map(|text| text.parse())
        .collect();
    let &[submissions, seed] = arguments.as_slice() else {
        eprintln!("usage: soak <submissions> <seed>");
        return ExitCode::from(2);
    };
    println!("seed {seed}");
    let mut mix = Mix::between(&WATCHED, seed);
    for done in 1..=submissions {
        if let Err(mismatch) = mix.step() {
            println!("submission {done} of seed {seed}: {mismatch}");
            return ExitCode::FAILURE;
        }
        if done % PROGRESS == 0 {
            println!("{done}");
        }
    }
    println!("{}", mix.tally());
    ExitCode::SUCCESS
}
