//! A message and its answer in words.

use crate::answer::Answer;
use crate::messages::{find, Found};
use crate::names;
use crate::values::shown;
use std::io::{self, Write};

/// Tells the swap, the action and the event. Of a message whose layout is wrong
/// nobody can say where they stand; what its header leads to is told, and that
/// it is no more than that.
pub fn write_message(
    position: u64,
    message: &[u8],
    verdict: u64,
    out: &mut impl Write,
) -> io::Result<()> {
    let length = message.len();
    if length > names::LONGEST_MESSAGE {
        return writeln!(
            out,
            "message {position}: longer than {} ({length}) and passed over",
            names::LONGEST_IN_WORDS
        );
    }
    let mut words = vec![swap_words(message), action_words(message)];
    words.extend(event_words(message));
    let lead = match verdict {
        names::LAYOUT_WRONG => "as far as it can be read: ",
        _ => "",
    };
    writeln!(out, "message {position}: {lead}{}", words.join(", "))
}

fn swap_words(message: &[u8]) -> String {
    match find(message, names::UTI) {
        Found::Value(value) => format!("swap {}", shown(value)),
        Found::Absent => "no swap named".to_string(),
        Found::Unreadable => "the swap cannot be read".to_string(),
    }
}

fn action_words(message: &[u8]) -> String {
    match find(message, names::ACTION_TYPE) {
        Found::Value(value) => {
            let meaning = names::action(value).unwrap_or("none of the seven actions");
            format!("action {} ({meaning})", shown(value))
        }
        Found::Absent => "no action".to_string(),
        Found::Unreadable => "the action cannot be read".to_string(),
    }
}

fn event_words(message: &[u8]) -> Option<String> {
    match find(message, names::EVENT_TYPE) {
        Found::Value(value) => Some(format!("event {}", shown(value))),
        _ => None,
    }
}

/// Tells what became of the message.
pub fn write_answer(answer: &Answer, out: &mut impl Write) -> io::Result<()> {
    let verdict = answer.verdict;
    let words = names::verdict(verdict).unwrap_or("no such verdict");
    if verdict == 0 {
        write!(out, "  {words} (verdict 0); ")?;
        return write_tape_line(answer.identifier, out);
    }
    write!(out, "  refused (verdict {verdict}): {words}")?;
    if let Some(name) = names::element(answer.element) {
        write!(out, "; element {}, {name}", answer.element)?;
    }
    writeln!(out)
}

fn write_tape_line(identifier: u64, out: &mut impl Write) -> io::Result<()> {
    match identifier {
        0 => writeln!(out, "no tape line is written"),
        _ => writeln!(
            out,
            "dissemination identifier of its tape line: {identifier:012}"
        ),
    }
}
