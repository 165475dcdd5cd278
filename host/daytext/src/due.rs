//! The report that a text's `due` lines give.

use crate::answer::{due_answer, Answer};
use crate::check::check;
use crate::day::{Block, Content, Day};
use crate::fault::{Fault, Stop};
use crate::report::HEADING;
use crate::text::parse;
use std::io::{self, Write};

/// Writes the report that the `due` lines of a text give. Every message must
/// have one.
pub fn due(text: &[u8], out: &mut impl Write) -> Result<(), Stop> {
    let day = parse(text)?;
    check(&day)?;
    all_due(&day)?;
    writeln!(out, "{HEADING}")?;
    let mut tally = Tally::default();
    for part in &day.parts {
        for n in 1..=part.times {
            for due in part.blocks.iter().flat_map(|block| &block.due) {
                tally.line(due_answer(due, n)?, out)?;
            }
        }
    }
    tally.last(out)?;
    Ok(())
}

fn all_due(day: &Day) -> Result<(), Fault> {
    let mut blocks = day.parts.iter().flat_map(|part| &part.blocks);
    let lacks = |block: &&Block| {
        let message = matches!(block.content, Content::Message { .. });
        message && block.due.is_none()
    };
    match blocks.find(lacks) {
        Some(block) => Err(Fault::new(block.line, "this message has no `due`")),
        None => Ok(()),
    }
}

#[derive(Default)]
struct Tally {
    judged: u64,
    published: u64,
    cut: bool,
}

impl Tally {
    fn line(&mut self, answer: Option<Answer>, out: &mut impl Write) -> io::Result<()> {
        let Some(Answer {
            verdict,
            element,
            identifier,
        }) = answer
        else {
            self.cut = true;
            return Ok(());
        };
        self.judged += 1;
        self.published += u64::from(identifier != 0);
        writeln!(out, "{} {verdict} {element} {identifier}", self.judged)
    }

    fn last(&self, out: &mut impl Write) -> io::Result<()> {
        let word = if self.cut { "cut" } else { "end" };
        writeln!(out, "{word} {} {}", self.judged, self.published)
    }
}
