//! The program: reads its input, calls the library, tells what is wrong.

#![forbid(unsafe_code)]

use daytext::Stop;
use std::ffi::OsString;
use std::io::{self, BufWriter, ErrorKind, Read, StdoutLock, Write};
use std::path::Path;
use std::process::ExitCode;

const USAGE: &str = "\
usage: daytext encode [FILE]          text to the bytes of a day
       daytext decode [FILE]          the bytes of a day to text
       daytext due [FILE]             the report that the text's `due` lines give
       daytext explain DAY [REPORT]   a day's report in words; DAY is bytes
Standard input is read where FILE or REPORT is not named.";

/// Report and day do not belong together.
const MISMATCH: u8 = 1;
/// Wrong text, wrong arguments, or a file that cannot be read or written.
const WRONG: u8 = 2;

/// The exit status, and what to say first.
struct Failure {
    status: u8,
    words: String,
}

fn main() -> ExitCode {
    let arguments: Vec<OsString> = std::env::args_os().skip(1).collect();
    match run(&arguments) {
        Ok(()) => ExitCode::SUCCESS,
        Err(failure) => {
            // Where even this cannot be written, the status must do.
            let _ = writeln!(io::stderr(), "{}", failure.words);
            ExitCode::from(failure.status)
        }
    }
}

fn run(arguments: &[OsString]) -> Result<(), Failure> {
    let Some((word, files)) = arguments.split_first() else {
        return Err(wrong(USAGE.to_string()));
    };
    match (word.to_str(), files) {
        (Some("--help" | "-h"), _) => help(),
        (Some("encode"), [] | [_]) => {
            let text = Input::read(files.first())?;
            write_out(&text.name, WRONG, |out| daytext::encode(&text.bytes, out))
        }
        (Some("decode"), [] | [_]) => {
            let day = Input::read(files.first())?;
            write_out(&day.name, WRONG, |out| {
                Ok(daytext::decode(&day.bytes, out)?)
            })
        }
        (Some("due"), [] | [_]) => {
            let text = Input::read(files.first())?;
            write_out(&text.name, WRONG, |out| daytext::due(&text.bytes, out))
        }
        (Some("explain"), [day]) => explain(day, None),
        (Some("explain"), [day, report]) => explain(day, Some(report)),
        _ => Err(wrong(USAGE.to_string())),
    }
}

fn wrong(words: String) -> Failure {
    let status = WRONG;
    Failure { status, words }
}

fn help() -> Result<(), Failure> {
    write_out("", WRONG, |out| Ok(writeln!(out, "{USAGE}")?))
}

fn explain(day: &OsString, report: Option<&OsString>) -> Result<(), Failure> {
    let day = Input::read(Some(day))?;
    let report = Input::read(report)?;
    write_out(&report.name, MISMATCH, |out| {
        daytext::explain(&day.bytes, &report.bytes, out)
    })
}

struct Input {
    name: String,
    bytes: Vec<u8>,
}

impl Input {
    /// The file's bytes, or those of standard input where no file is named.
    fn read(file: Option<&OsString>) -> Result<Input, Failure> {
        let (name, read) = match file {
            Some(file) => (Path::new(file).display().to_string(), std::fs::read(file)),
            None => ("standard input".to_string(), read_standard_input()),
        };
        match read {
            Ok(bytes) => Ok(Input { name, bytes }),
            Err(error) => Err(wrong(format!("{name}: cannot be read: {error}"))),
        }
    }
}

fn read_standard_input() -> io::Result<Vec<u8>> {
    let mut bytes = Vec::new();
    io::stdin().lock().read_to_end(&mut bytes)?;
    Ok(bytes)
}

/// Does work that writes to standard output. A fault is told with the name
/// of the input; a reader that has closed the pipe is no failure.
fn write_out(
    name: &str,
    fault_status: u8,
    work: impl FnOnce(&mut BufWriter<StdoutLock>) -> Result<(), Stop>,
) -> Result<(), Failure> {
    let mut out = BufWriter::with_capacity(1 << 16, io::stdout().lock());
    let done = work(&mut out);
    let written = out.flush().map_err(Stop::Output);
    match done.and(written) {
        Ok(()) => Ok(()),
        Err(Stop::Output(error)) if error.kind() == ErrorKind::BrokenPipe => Ok(()),
        Err(Stop::Output(error)) => Err(wrong(format!("standard output: {error}"))),
        Err(Stop::Fault(fault)) => Err(Failure {
            status: fault_status,
            words: format!("{name}:{}: {}", fault.line, fault.sentence),
        }),
    }
}
