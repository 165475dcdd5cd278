//! Templates, and the elements that a block has with their help.

use crate::day::Element;
use crate::entry::{Change, Name};
use crate::fault::Fault;
use std::collections::BTreeMap;

/// The lines of a block that say which elements it has.
#[derive(Default)]
pub struct ElementLines {
    pub like: Option<Name>,
    pub changes: Vec<Change>,
}

impl ElementLines {
    pub fn is_empty(&self) -> bool {
        self.like.is_none() && self.changes.is_empty()
    }
}

type ByCode = BTreeMap<u16, Element>;

/// The templates of a text so far.
#[derive(Default)]
pub struct Templates {
    by_name: BTreeMap<String, ByCode>,
}

impl Templates {
    /// Takes up a template.
    pub fn define(&mut self, name: Name, lines: ElementLines) -> Result<(), Fault> {
        let elements = self.by_code(lines)?;
        let fault = |sentence| Err(Fault::new(name.line, sentence));
        if elements.is_empty() {
            return fault("the template has no element".to_string());
        }
        if self.by_name.contains_key(&name.text) {
            return fault(format!("there is a template `{}` already", name.text));
        }
        self.by_name.insert(name.text, elements);
        Ok(())
    }

    /// The elements of a message. Counters are allowed inside a repeat only.
    pub fn elements(&self, lines: ElementLines, in_repeat: bool) -> Result<Vec<Element>, Fault> {
        let Some(like) = lines.like.clone() else {
            return as_written(lines.changes);
        };
        let elements = self.by_code(lines)?;
        if !in_repeat && elements.values().any(|element| element.value.has_counter()) {
            let name = like.text;
            let sentence = format!("a counter of the template `{name}` stands outside a repeat");
            return Err(Fault::new(like.line, sentence));
        }
        Ok(elements.into_values().collect())
    }

    /// The elements of a block in which codes rise.
    fn by_code(&self, lines: ElementLines) -> Result<ByCode, Fault> {
        rising(&lines.changes)?;
        let mut elements = match &lines.like {
            Some(name) => self.template(name)?.clone(),
            None => ByCode::new(),
        };
        for change in lines.changes {
            match change {
                Change::Element(element) => {
                    elements.insert(element.code, element);
                }
                Change::Without { line, code } => {
                    let left_out = elements.remove(&code);
                    left_out
                        .ok_or_else(|| nothing_to_leave_out(line, code, lines.like.as_ref()))?;
                }
            }
        }
        Ok(elements)
    }

    fn template(&self, name: &Name) -> Result<&ByCode, Fault> {
        self.by_name.get(&name.text).ok_or_else(|| {
            let sentence = format!("no template `{}` stands before this line", name.text);
            Fault::new(name.line, sentence)
        })
    }
}

/// The elements of a message without a template, in the order of the text.
fn as_written(changes: Vec<Change>) -> Result<Vec<Element>, Fault> {
    let element = |change| match change {
        Change::Element(element) => Ok(element),
        Change::Without { line, code } => Err(nothing_to_leave_out(line, code, None)),
    };
    changes.into_iter().map(element).collect()
}

fn rising(changes: &[Change]) -> Result<(), Fault> {
    for pair in changes.windows(2) {
        let (before, change) = (&pair[0], &pair[1]);
        if change.code() <= before.code() {
            let sentence = format!(
                "code {} stands behind code {}; in a block with `template` or `like` codes rise",
                change.code(),
                before.code()
            );
            return Err(Fault::new(change.line(), sentence));
        }
    }
    Ok(())
}

fn nothing_to_leave_out(line: usize, code: u16, like: Option<&Name>) -> Fault {
    let sentence = match like {
        Some(name) => format!("the template `{}` has no element {code}", name.text),
        None => "`without` stands in a block that has no `like`".to_string(),
    };
    Fault::new(line, sentence)
}
