//! A text read as a day: its blocks, repeats and templates.

use crate::block::{block, template};
use crate::day::{Block, Day, Part};
use crate::entry::fields;
use crate::fault::Fault;
use crate::lines::{blocks, Line};
use crate::numbers::decimal;
use crate::templates::Templates;

/// The most that a repeat can say.
const MOST_TIMES: u64 = 4_294_967_295;

/// Reads a text.
pub fn parse(text: &[u8]) -> Result<Day, Fault> {
    let mut reader = Reader::default();
    for lines in blocks(text) {
        reader.take(&lines)?;
    }
    reader.finish()
}

#[derive(Default)]
struct Reader {
    parts: Vec<Part>,
    templates: Templates,
    /// The line of the repeat whose `again` is still to come.
    repeat: Option<usize>,
    /// The line that said `due cut`.
    cut: Option<usize>,
}

impl Reader {
    fn take(&mut self, lines: &[Line]) -> Result<(), Fault> {
        if let Some(line) = self.cut {
            let sentence = "`due cut` stands in a block that is not the last one";
            return Err(Fault::new(line, sentence));
        }
        match lines {
            [line] if line.word().0 == b"repeat" => self.open(line),
            [line] if line.word().0 == b"again" => self.close(line),
            [first, rest @ ..] if first.word().0 == b"template" => {
                template(first, rest, &mut self.templates)
            }
            _ => {
                self.push(block(lines, &self.templates, self.repeat.is_some())?);
                Ok(())
            }
        }
    }

    fn open(&mut self, line: &Line) -> Result<(), Fault> {
        let fault = |sentence: &str| Err(Fault::new(line.number, sentence));
        if self.repeat.is_some() {
            return fault("a `repeat` stands inside another one, whose `again` has not come");
        }
        let times = match fields(line.word().1)[..] {
            [field] => decimal(field).filter(|&times| times <= MOST_TIMES),
            _ => None,
        };
        let Some(times) = times else {
            return fault("behind `repeat` stands one number from 0 to 4294967295");
        };
        self.repeat = Some(line.number);
        self.parts.push(part(times));
        Ok(())
    }

    fn close(&mut self, line: &Line) -> Result<(), Fault> {
        let fault = |sentence: &str| Err(Fault::new(line.number, sentence));
        if !fields(line.word().1).is_empty() {
            return fault("behind `again` stands nothing");
        }
        if self.repeat.take().is_none() {
            return fault("this `again` has no `repeat` before it");
        }
        self.parts.push(part(1));
        Ok(())
    }

    fn push(&mut self, block: Block) {
        let due = block.due.as_ref();
        let cut = due.filter(|due| due.numbers.is_none());
        self.cut = cut.map(|due| due.line);
        if self.parts.is_empty() {
            self.parts.push(part(1));
        }
        if let Some(part) = self.parts.last_mut() {
            part.blocks.push(block);
        }
    }

    fn finish(self) -> Result<Day, Fault> {
        match self.repeat {
            Some(line) => Err(Fault::new(line, "this `repeat` has no `again`")),
            None => Ok(Day { parts: self.parts }),
        }
    }
}

fn part(times: u64) -> Part {
    let blocks = Vec::new();
    Part { times, blocks }
}
