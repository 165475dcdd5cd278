//! Reads a table of questions on standard input and writes each line with the
//! checker's answer.

use std::io::Write;
use std::process::ExitCode;

fn main() -> ExitCode {
    match run() {
        Ok(()) => ExitCode::SUCCESS,
        Err(fault) => {
            eprintln!("checktable: {fault}");
            ExitCode::FAILURE
        }
    }
}

fn run() -> Result<(), String> {
    let text = |fault: std::io::Error| fault.to_string();
    let table = std::io::read_to_string(std::io::stdin()).map_err(text)?;
    let answers = checker::table::answered(&table)?;
    let mut output = std::io::stdout();
    output.write_all(answers.as_bytes()).map_err(text)
}
