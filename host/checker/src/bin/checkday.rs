//! The checker's day run: reads all of standard input, then writes the report.
//! A read that fails counts as the end of input.

use std::io::{Read, Write};
use std::process::ExitCode;

fn main() -> ExitCode {
    let mut input = Vec::new();
    // What was read before a failure stays in the buffer.
    _ = std::io::stdin().read_to_end(&mut input);
    match std::io::stdout().write_all(&checker::day::report(&input)) {
        Ok(()) => ExitCode::SUCCESS,
        Err(_) => ExitCode::FAILURE,
    }
}
