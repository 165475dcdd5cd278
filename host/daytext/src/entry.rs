//! One line of a block.

use crate::day::{Due, Element};
use crate::fault::Fault;
use crate::lines::Line;
use crate::numbers::{decimal16, hex_pair};
use crate::values::{shown, Value};

#[derive(Debug)]
pub enum Entry {
    Change(Change),
    Like(Name),
    Count(u16),
    Length(u16),
    /// From `bytes` or `fill`.
    Bytes(Vec<u8>),
    Raw(Vec<u8>),
    Due(Due),
}

/// An element, or that an element of the template is left out.
#[derive(Debug)]
pub enum Change {
    Element(Element),
    Without { line: usize, code: u16 },
}

impl Change {
    pub fn line(&self) -> usize {
        match self {
            Change::Element(element) => element.line,
            Change::Without { line, .. } => *line,
        }
    }

    pub fn code(&self) -> u16 {
        match self {
            Change::Element(element) => element.code,
            Change::Without { code, .. } => *code,
        }
    }
}

/// The name of a template, and the line in which it stands.
#[derive(Debug, Clone)]
pub struct Name {
    pub line: usize,
    pub text: String,
}

/// Reads a line. Counters may be allowed or not.
pub fn read(line: &Line, counters: bool) -> Result<Entry, Fault> {
    let fault = |sentence| Fault::new(line.number, sentence);
    let entry = entry(line).map_err(fault)?;
    if has_counter(&entry) && !counters {
        return Err(fault("a counter stands outside a repeat".to_string()));
    }
    Ok(entry)
}

fn has_counter(entry: &Entry) -> bool {
    match entry {
        Entry::Change(Change::Element(element)) => element.value.has_counter(),
        Entry::Due(due) => due.numbers.iter().flatten().any(Value::has_counter),
        _ => false,
    }
}

fn entry(line: &Line) -> Result<Entry, String> {
    let (word, rest) = line.word();
    match word {
        [b'0'..=b'9', ..] => {
            element(line.number, word, rest).map(|element| Entry::Change(Change::Element(element)))
        }
        b"without" => without(line.number, rest).map(Entry::Change),
        b"like" => name("like", line).map(Entry::Like),
        b"count" => number("count", rest).map(Entry::Count),
        b"length" => number("length", rest).map(Entry::Length),
        b"bytes" => hex(rest).map(Entry::Bytes),
        b"fill" => fill(rest).map(Entry::Bytes),
        b"raw" => hex(rest).map(Entry::Raw),
        b"due" => due(line.number, rest).map(Entry::Due),
        b"repeat" | b"again" => Err(format!(
            "`{}` stands alone, with a blank line before and behind it",
            shown(word)
        )),
        b"template" => Err("`template` stands in the first line of its block".to_string()),
        _ => Err(unknown(line, word)),
    }
}

fn unknown(line: &Line, word: &[u8]) -> String {
    if line.text.ends_with(b"\r") {
        "the line ends in a carriage return; a newline alone ends a line".to_string()
    } else if word.is_empty() {
        "the line starts with a space; it must start with an element's code or a word".to_string()
    } else {
        format!("`{}` is not a word of the form", shown(word))
    }
}

fn element(line: usize, word: &[u8], rest: &[u8]) -> Result<Element, String> {
    let (code, offset) = match word.iter().position(|&byte| byte == b'@') {
        Some(at) => (&word[..at], Some(&word[at + 1..])),
        None => (word, None),
    };
    let code = decimal16(code)
        .ok_or_else(|| format!("the code `{}` is not a number from 0 to 65535", shown(code)))?;
    let offset = offset.map(offset_number).transpose()?;
    let value = Value::parse(rest)?;
    Ok(Element {
        line,
        code,
        offset,
        value,
    })
}

fn without(line: usize, rest: &[u8]) -> Result<Change, String> {
    let code = number("without", rest)?;
    Ok(Change::Without { line, code })
}

/// The name behind `template` or `like`.
pub fn name(word: &str, line: &Line) -> Result<Name, String> {
    let fits = |byte: &u8| byte.is_ascii_alphanumeric() || *byte == b'-';
    match fields(line.word().1)[..] {
        [field] if field.iter().all(fits) => Ok(Name {
            line: line.number,
            text: String::from_utf8_lossy(field).into_owned(),
        }),
        _ => Err(format!(
            "behind `{word}` stands one name of letters, digits and hyphens"
        )),
    }
}

fn offset_number(text: &[u8]) -> Result<u16, String> {
    decimal16(text).ok_or_else(|| {
        let text = shown(text);
        format!("the offset `{text}` is not a number from 0 to 65535")
    })
}

/// The fields of a line, between which one or more spaces stand.
pub fn fields(rest: &[u8]) -> Vec<&[u8]> {
    let pieces = rest.split(|&byte| byte == b' ');
    pieces.filter(|piece| !piece.is_empty()).collect()
}

fn number(word: &str, rest: &[u8]) -> Result<u16, String> {
    let number = match fields(rest)[..] {
        [field] => decimal16(field),
        _ => None,
    };
    number.ok_or_else(|| format!("behind `{word}` stands one number from 0 to 65535"))
}

fn fill(rest: &[u8]) -> Result<Vec<u8>, String> {
    let run = match fields(rest)[..] {
        [times, &[high, low]] => decimal16(times).zip(hex_pair(high, low)),
        _ => None,
    };
    let (times, byte) =
        run.ok_or("behind `fill` stand a number from 0 to 65535 and two hexadecimal digits")?;
    Ok(vec![byte; usize::from(times)])
}

fn hex(text: &[u8]) -> Result<Vec<u8>, String> {
    let mut bytes = Vec::new();
    let mut rest = text;
    loop {
        rest = match rest {
            [] => return Ok(bytes),
            [b' ', behind @ ..] => behind,
            [_] | [_, b' ', ..] => {
                return Err("a hexadecimal digit stands alone; they come in pairs".to_string())
            }
            [high, low, behind @ ..] => {
                let wrong = || format!("`{}` is not hexadecimal", shown(&[*high, *low]));
                bytes.push(hex_pair(*high, *low).ok_or_else(wrong)?);
                behind
            }
        };
    }
}

fn due(line: usize, rest: &[u8]) -> Result<Due, String> {
    let numbers = match fields(rest)[..] {
        [b"cut"] => None,
        [verdict, element, identifier] => Some([
            due_number(verdict)?,
            due_number(element)?,
            due_number(identifier)?,
        ]),
        _ => {
            return Err("behind `due` stand verdict, element and identifier, or `cut`".to_string())
        }
    };
    Ok(Due { line, numbers })
}

fn due_number(field: &[u8]) -> Result<Value, String> {
    let value = Value::parse(field)?;
    if value.is_number() && !field.contains(&b'\\') {
        Ok(value)
    } else {
        Err(format!("`{}` in `due` is not a number", shown(field)))
    }
}
