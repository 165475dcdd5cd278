//! What is wrong with a text or a report, and in which line.

use std::io;

/// A line that is wrong, counted from 1, and a sentence that says why.
#[derive(Debug, Clone, PartialEq, Eq)]
pub struct Fault {
    pub line: usize,
    pub sentence: String,
}

impl Fault {
    pub fn new(line: usize, sentence: impl Into<String>) -> Self {
        let sentence = sentence.into();
        Fault { line, sentence }
    }
}

/// Why the work stopped before its end.
#[derive(Debug)]
pub enum Stop {
    /// The input is wrong.
    Fault(Fault),
    /// The output could not be written.
    Output(io::Error),
}

impl From<Fault> for Stop {
    fn from(fault: Fault) -> Self {
        Stop::Fault(fault)
    }
}

impl From<io::Error> for Stop {
    fn from(error: io::Error) -> Self {
        Stop::Output(error)
    }
}
