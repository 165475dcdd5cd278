//! What is due for a message.

use sdr::{Answer, ACCEPTED};
use std::fmt;

#[derive(Clone, Copy, PartialEq, Eq, PartialOrd, Ord)]
pub enum Due {
    /// It is accepted and writes a line.
    Line,
    /// It is accepted and writes none.
    NoLine,
    /// It is refused with this verdict.
    Refused(u8),
}

impl Due {
    /// Whether this is the answer to the message.
    pub fn is_met(self, answer: Answer) -> bool {
        let (verdict, line) = match self {
            Due::Line => (ACCEPTED, true),
            Due::NoLine => (ACCEPTED, false),
            Due::Refused(verdict) => (verdict, false),
        };
        answer.verdict == verdict && (answer.identifier != 0) == line
    }
}

impl fmt::Display for Due {
    fn fmt(&self, out: &mut fmt::Formatter) -> fmt::Result {
        match self {
            Due::Line => write!(out, "verdict {ACCEPTED} and a line"),
            Due::NoLine => write!(out, "verdict {ACCEPTED} and no line"),
            Due::Refused(verdict) => write!(out, "verdict {verdict}"),
        }
    }
}
