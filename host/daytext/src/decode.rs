//! A day's bytes as text. Encoding the text gives the same bytes again.

use crate::messages::{split, Rest};
use crate::names::ELEMENTS;
use crate::numbers::u16_at;
use crate::values::escaped;
use std::io::{self, Write};

/// The most bytes in a `bytes` line.
const BYTES_IN_LINE: usize = 32;

/// A message with more elements than this is shown as elements only if its
/// header is right.
const MOST_ODD: usize = ELEMENTS.len();

/// Writes any bytes as the text of a day.
pub fn decode(day: &[u8], out: &mut impl Write) -> io::Result<()> {
    let messages = split(day);
    for (before, message) in messages.whole.iter().enumerate() {
        separate(before, out)?;
        writeln!(out, "# message {}", before + 1)?;
        match message {
            [] => writeln!(out, "bytes")?,
            _ => write_body(message, out)?,
        }
    }
    write_rest(messages.whole.len(), messages.rest, out)
}

/// A blank line, unless the block is the first.
fn separate(before: usize, out: &mut impl Write) -> io::Result<()> {
    if before > 0 {
        writeln!(out)?;
    }
    Ok(())
}

fn write_rest(before: usize, rest: Rest, out: &mut impl Write) -> io::Result<()> {
    let position = before + 1;
    match rest {
        Rest::Nothing => Ok(()),
        Rest::Length(byte) => {
            separate(before, out)?;
            writeln!(
                out,
                "# the input stops inside the length of message {position}"
            )?;
            writeln!(out, "raw {byte:02x}")
        }
        Rest::Message { length, bytes } => {
            separate(before, out)?;
            writeln!(out, "# the input stops inside message {position}")?;
            writeln!(out, "length {length}")?;
            match bytes {
                [] => Ok(()),
                _ => write_body(bytes, out),
            }
        }
    }
}

/// Writes a message that has at least one byte.
fn write_body(message: &[u8], out: &mut impl Write) -> io::Result<()> {
    let Some(count) = u16_at(message, 0) else {
        return write_bytes(message, out);
    };
    if count == 0 {
        writeln!(out, "count 0")?;
        return write_bytes(&message[2..], out);
    }
    let Some(lines) = element_lines(message, count) else {
        return write_bytes(message, out);
    };
    if lines.len() != usize::from(count) {
        writeln!(out, "count {count}")?;
    }
    lines.iter().try_for_each(|line| line.write(out))
}

fn write_bytes(bytes: &[u8], out: &mut impl Write) -> io::Result<()> {
    for line in bytes.chunks(BYTES_IN_LINE) {
        write!(out, "bytes")?;
        for byte in line {
            write!(out, " {byte:02x}")?;
        }
        writeln!(out)?;
    }
    Ok(())
}

/// An element; `odd` says that its offset is not where its value stands.
struct ElementLine<'a> {
    code: u16,
    offset: u16,
    odd: bool,
    value: &'a [u8],
}

impl ElementLine<'_> {
    fn write(&self, out: &mut impl Write) -> io::Result<()> {
        write!(out, "{}", self.code)?;
        if self.odd {
            write!(out, "@{}", self.offset)?;
        }
        if !self.value.is_empty() {
            write!(out, " {}", escaped(self.value))?;
        }
        writeln!(out)
    }
}

/// The message as elements. It has as many as its count says or as its first
/// offset makes room for: whichever leaves fewer odd lines, then whichever
/// leaves fewer bytes to escape.
fn element_lines(message: &[u8], count: u16) -> Option<Vec<ElementLine<'_>>> {
    let count = usize::from(count);
    let told = cut_up(message, count);
    let room = room(message)
        .filter(|&room| room != count)
        .and_then(|room| cut_up(message, room));
    let odd = |lines: &Vec<ElementLine>| {
        let wrong_count = usize::from(lines.len() != count);
        wrong_count + lines.iter().filter(|line| line.odd).count()
    };
    let choice = |lines: &Vec<ElementLine>| (odd(lines), unprintable(lines));
    let best = told.into_iter().chain(room).min_by_key(choice)?;
    (best.len() <= MOST_ODD || odd(&best) == 0).then_some(best)
}

fn unprintable(lines: &[ElementLine]) -> usize {
    let bytes = lines.iter().flat_map(|line| line.value);
    bytes.filter(|byte| !(b' '..=b'~').contains(byte)).count()
}

/// How many entries fit in front of the first offset.
fn room(message: &[u8]) -> Option<usize> {
    let header = usize::from(u16_at(message, 4)?).checked_sub(2)?;
    (header > 0 && header % 4 == 0).then_some(header / 4)
}

/// Takes so many entries as the header and shares out all bytes behind it as
/// values: each runs to the next offset where that is possible, the last one
/// to the end.
fn cut_up(message: &[u8], entries: usize) -> Option<Vec<ElementLine<'_>>> {
    let mut place = 2 + 4 * entries;
    if message.len() < place {
        return None;
    }
    let mut lines = Vec::with_capacity(entries);
    for entry in 0..entries {
        let code = u16_at(message, 2 + 4 * entry)?;
        let offset = u16_at(message, 4 + 4 * entry)?;
        let next = match entry + 1 == entries {
            true => message.len(),
            false => usize::from(u16_at(message, 8 + 4 * entry)?),
        };
        let end = if (place..=message.len()).contains(&next) {
            next
        } else {
            place
        };
        lines.push(ElementLine {
            code,
            offset,
            odd: usize::from(offset) != place,
            value: &message[place..end],
        });
        place = end;
    }
    Some(lines)
}
