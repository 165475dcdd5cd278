//! A day's report in words, read beside the day.

use crate::answer::Answer;
use crate::fault::{Fault, Stop};
use crate::lines::{lines, Line};
use crate::messages::{split, Messages, Rest};
use crate::names;
use crate::report::{read_line, ReportLine, HEADING};
use crate::words::{write_answer, write_message};
use std::io::{self, Write};

/// Explains each line of a report. Where report and day do not belong
/// together it stops, and names the report's line.
pub fn explain(day: &[u8], report: &[u8], out: &mut impl Write) -> Result<(), Stop> {
    let mut lines = lines(report).map(without_return);
    heading(lines.next())?;
    let mut reading = Reading {
        messages: split(day),
        judged: 0,
        published: 0,
    };
    let mut last_number = 1;
    for line in lines.by_ref() {
        last_number = line.number;
        if reading.line(&line, out)? {
            return nothing_behind(lines.next()).map_err(Stop::from);
        }
    }
    let sentence = "the report stops here without `end` or `cut`";
    Err(Fault::new(last_number, sentence).into())
}

/// The line without a carriage return at its end.
fn without_return(line: Line) -> Line {
    let text = line.text.strip_suffix(b"\r").unwrap_or(line.text);
    Line { text, ..line }
}

fn heading(line: Option<Line>) -> Result<(), Fault> {
    match line {
        Some(line) if line.text == HEADING.as_bytes() => Ok(()),
        Some(line) => {
            let sentence = format!("the report does not start with `{HEADING}`");
            Err(Fault::new(line.number, sentence))
        }
        None => Err(Fault::new(1, "the report is empty")),
    }
}

fn nothing_behind(line: Option<Line>) -> Result<(), Fault> {
    match line {
        Some(line) => Err(Fault::new(
            line.number,
            "the report goes on behind its last line",
        )),
        None => Ok(()),
    }
}

/// The day, and how far the report has come in it.
struct Reading<'a> {
    messages: Messages<'a>,
    judged: usize,
    published: u64,
}

impl Reading<'_> {
    /// Explains a line; true where it is the last one.
    fn line(&mut self, line: &Line, out: &mut impl Write) -> Result<bool, Stop> {
        let fault = |sentence| Fault::new(line.number, sentence);
        match read_line(line.text).map_err(fault)? {
            ReportLine::Message { position, answer } => {
                let message = self.message(position, &answer).map_err(fault)?;
                write_message(position, message, answer.verdict, out)?;
                write_answer(&answer, out)?;
                self.judged += 1;
                self.published += u64::from(answer.identifier != 0);
                Ok(false)
            }
            ReportLine::Last {
                cut,
                judged,
                published,
            } => {
                self.ends(cut).map_err(fault)?;
                self.adds_up(judged, published).map_err(fault)?;
                self.write_last(out)?;
                Ok(true)
            }
        }
    }

    /// The message that a line with this position and answer can be about.
    fn message(&self, position: u64, answer: &Answer) -> Result<&[u8], String> {
        let due = self.judged + 1;
        let Some(message) = self.messages.whole.get(self.judged) else {
            return Err(format!(
                "this line is one too many: whole messages in the day: {}",
                self.judged
            ));
        };
        if usize::try_from(position) != Ok(due) {
            return Err(format!(
                "the line is about message {position}, but message {due} is next"
            ));
        }
        if answer.verdict != 0 && answer.identifier != 0 {
            return Err("a refused message has no tape line, but the line gives one".to_string());
        }
        let refused_so = answer.verdict == names::LAYOUT_WRONG && answer.element == 0;
        if message.len() > names::LONGEST_MESSAGE && !refused_so {
            return Err(format!(
                "message {due} is longer than {}, which gives verdict {} and element 0",
                names::LONGEST_IN_WORDS,
                names::LAYOUT_WRONG
            ));
        }
        Ok(message)
    }

    /// Holds the last word to the day.
    fn ends(&self, cut: bool) -> Result<(), String> {
        let whole = self.messages.whole.len();
        if self.judged < whole {
            return Err(format!(
                "the report ends too early: messages so far: {}, whole messages in the day: {whole}",
                self.judged
            ));
        }
        match (cut, self.messages.rest) {
            (true, Rest::Nothing) => Err(
                "the report says `cut`, but the day stops inside no length and no message"
                    .to_string(),
            ),
            (false, Rest::Length(_) | Rest::Message { .. }) => Err(format!(
                "the report says `end`, but the day stops inside {}",
                self.stopped()
            )),
            _ => Ok(()),
        }
    }

    fn adds_up(&self, judged: u64, published: u64) -> Result<(), String> {
        if usize::try_from(judged) != Ok(self.judged) {
            return Err(format!(
                "messages judged in this line: {judged}, in the lines before: {}",
                self.judged
            ));
        }
        if published != self.published {
            return Err(format!(
                "tape lines published in this line: {published}, in the lines before: {}",
                self.published
            ));
        }
        Ok(())
    }

    /// Where the day stops, if not behind a whole message.
    fn stopped(&self) -> String {
        let position = self.messages.whole.len() + 1;
        match self.messages.rest {
            Rest::Message { length, bytes } => {
                format!(
                    "message {position}, at {} of its {length} bytes",
                    bytes.len()
                )
            }
            _ => format!("the length of message {position}"),
        }
    }

    fn write_last(&self, out: &mut impl Write) -> io::Result<()> {
        match self.messages.rest {
            Rest::Nothing => write!(out, "end: all input was read")?,
            _ => write!(out, "cut: the input stops inside {}", self.stopped())?,
        }
        let (judged, published) = (self.judged, self.published);
        writeln!(
            out,
            "; messages judged: {judged}, tape lines published: {published}"
        )
    }
}
