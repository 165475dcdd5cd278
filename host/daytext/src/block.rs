//! The lines of one block put together.

use crate::day::{Block, Body, Content, Due, Elements};
use crate::entry::{name, read, Entry};
use crate::fault::Fault;
use crate::lines::Line;
use crate::templates::{ElementLines, Templates};

/// Reads a block that is no template, no `repeat` and no `again`.
pub fn block(lines: &[Line], templates: &Templates, in_repeat: bool) -> Result<Block, Fault> {
    let mut gathered = Gathered::default();
    for line in lines {
        let entry = read(line, in_repeat)?;
        let fault = |sentence| Fault::new(line.number, sentence);
        gathered.add(entry).map_err(fault)?;
    }
    let line = lines.first().map_or(0, |line| line.number);
    let fault = |sentence| Fault::new(line, sentence);
    gathered.agree().map_err(fault)?;
    gathered.finish(line, templates, in_repeat)
}

/// Reads a template, whose name stands in the first line.
pub fn template(first: &Line, rest: &[Line], templates: &mut Templates) -> Result<(), Fault> {
    let fault = |sentence| Fault::new(first.number, sentence);
    let name = name("template", first).map_err(fault)?;
    let mut gathered = Gathered::default();
    for line in rest {
        let fault = |sentence| Fault::new(line.number, sentence);
        let entry = read(line, true)?;
        if !matches!(entry, Entry::Change(_) | Entry::Like(_)) {
            let sentence = "a template has nothing but elements, `like` and `without`";
            return Err(fault(sentence.to_string()));
        }
        gathered.add(entry).map_err(fault)?;
    }
    templates.define(name, gathered.elements)
}

/// The lines of a block by kind.
#[derive(Default)]
struct Gathered {
    length: Option<u16>,
    count: Option<u16>,
    elements: ElementLines,
    further: Option<Vec<u8>>,
    raw: Option<Vec<u8>>,
    due: Option<Due>,
}

impl Gathered {
    fn add(&mut self, entry: Entry) -> Result<(), String> {
        match entry {
            Entry::Change(change) => self.elements.changes.push(change),
            Entry::Like(name) => once("like", &mut self.elements.like, name)?,
            Entry::Bytes(bytes) => self.further.get_or_insert_default().extend(bytes),
            Entry::Raw(bytes) => self.raw.get_or_insert_default().extend(bytes),
            Entry::Count(count) => once("count", &mut self.count, count)?,
            Entry::Length(length) => once("length", &mut self.length, length)?,
            Entry::Due(due) => once("due", &mut self.due, due)?,
        }
        Ok(())
    }

    /// Whether the lines can stand in one block.
    fn agree(&self) -> Result<(), String> {
        let message = self.length.is_some() || self.further.is_some() || self.has_elements();
        let answered = self.due.as_ref().is_some_and(|due| due.numbers.is_some());
        match self.raw {
            Some(_) if message || answered => {
                Err("beside `raw` nothing but `due cut` may stand in a block".to_string())
            }
            None if !message => Err("the block has a `due` but no message".to_string()),
            _ => Ok(()),
        }
    }

    fn finish(self, line: usize, templates: &Templates, in_repeat: bool) -> Result<Block, Fault> {
        let has_elements = self.has_elements();
        let body = if has_elements {
            Body::Elements(Elements {
                count: self.count,
                elements: templates.elements(self.elements, in_repeat)?,
                further: self.further.unwrap_or_default(),
            })
        } else {
            self.further.map_or(Body::Absent, Body::Bytes)
        };
        let content = match self.raw {
            Some(bytes) => Content::Raw(bytes),
            None => Content::Message {
                length: self.length,
                body,
            },
        };
        let due = self.due;
        Ok(Block { line, content, due })
    }

    fn has_elements(&self) -> bool {
        self.count.is_some() || !self.elements.is_empty()
    }
}

fn once<T>(word: &str, place: &mut Option<T>, value: T) -> Result<(), String> {
    match place.replace(value) {
        Some(_) => Err(format!("the block has a second `{word}`")),
        None => Ok(()),
    }
}
