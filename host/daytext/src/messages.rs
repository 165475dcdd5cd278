//! A day's bytes taken apart.

use crate::numbers::u16_at;

/// A day as its whole messages and what is left behind them.
pub struct Messages<'a> {
    pub whole: Vec<&'a [u8]>,
    pub rest: Rest<'a>,
}

#[derive(Debug, Clone, Copy)]
pub enum Rest<'a> {
    Nothing,
    /// The first byte of a length.
    Length(u8),
    /// A length, and fewer bytes than it says.
    Message {
        length: u16,
        bytes: &'a [u8],
    },
}

/// Takes a day apart at the lengths in front of its messages.
pub fn split(day: &[u8]) -> Messages<'_> {
    let mut whole = Vec::new();
    let mut behind = day;
    let rest = loop {
        let (length, bytes) = match behind {
            [] => break Rest::Nothing,
            [byte] => break Rest::Length(*byte),
            [low, high, bytes @ ..] => (u16::from_le_bytes([*low, *high]), bytes),
        };
        match bytes.split_at_checked(usize::from(length)) {
            Some((message, next)) => {
                whole.push(message);
                behind = next;
            }
            None => break Rest::Message { length, bytes },
        }
    };
    Messages { whole, rest }
}

/// What can be told of an element's value, also where the layout is wrong.
#[derive(Debug, PartialEq, Eq)]
pub enum Found<'a> {
    Value(&'a [u8]),
    Absent,
    Unreadable,
}

/// Looks for the first element with this code.
pub fn find(message: &[u8], code: u16) -> Found<'_> {
    let Some(count) = u16_at(message, 0) else {
        return Found::Unreadable;
    };
    for place in 0..usize::from(count) {
        let entry = message.get(2 + 4 * place..6 + 4 * place);
        let Some(found) = entry.and_then(|entry| u16_at(entry, 0)) else {
            return Found::Unreadable;
        };
        if found == code {
            let value = value_at(message, usize::from(count), place);
            return value.map_or(Found::Unreadable, Found::Value);
        }
    }
    Found::Absent
}

/// The value of the entry at a place: from its offset to the next one, if
/// both lie in the message, behind the entry itself.
fn value_at(message: &[u8], count: usize, place: usize) -> Option<&[u8]> {
    let offset = |place: usize| u16_at(message, 4 + 4 * place).map(usize::from);
    let start = offset(place)?;
    let end = if place + 1 < count {
        offset(place + 1)?
    } else {
        message.len()
    };
    let behind_entry = start >= 6 + 4 * place;
    message
        .get(start..end)
        .filter(|value| behind_entry && !value.is_empty())
}
