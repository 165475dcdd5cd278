//! The lines of a day's report, read.

use crate::answer::Answer;
use crate::numbers::decimal;
use crate::values::shown;

pub const HEADING: &str = "message verdict element record";

/// A line of a report behind its heading.
#[derive(Debug)]
pub enum ReportLine {
    Message {
        position: u64,
        answer: Answer,
    },
    Last {
        cut: bool,
        judged: u64,
        published: u64,
    },
}

/// Reads a line of a report.
pub fn read_line(text: &[u8]) -> Result<ReportLine, String> {
    let fields: Vec<&[u8]> = text.split(|&byte| byte == b' ').collect();
    match fields[..] {
        [word @ (b"end" | b"cut"), judged, published] => Ok(ReportLine::Last {
            cut: word == b"cut",
            judged: field(judged)?,
            published: field(published)?,
        }),
        [position, verdict, element, identifier] => Ok(ReportLine::Message {
            position: field(position)?,
            answer: Answer::new([field(verdict)?, field(element)?, field(identifier)?])?,
        }),
        _ => Err(format!(
            "`{}` is neither four numbers nor `end` or `cut` with two",
            shown(text)
        )),
    }
}

fn field(text: &[u8]) -> Result<u64, String> {
    decimal(text).ok_or_else(|| format!("`{}` is not a number", shown(text)))
}
