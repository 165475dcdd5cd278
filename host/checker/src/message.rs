//! Section 2: the message.

use crate::elements::LAST_CODE;
use crate::sizes::{COUNT, ENTRY, LONGEST_MESSAGE, U16};

/// The values of one message by element code, each a part of the message.
pub struct Values<'a> {
    by_code: [Option<&'a [u8]>; LAST_CODE as usize + 1],
}

impl<'a> Values<'a> {
    /// Reads the header. None where the layout is wrong (rule 5).
    pub fn read(message: &'a [u8]) -> Option<Values<'a>> {
        if message.len() > LONGEST_MESSAGE {
            return None;
        }
        // 2.1
        let count = u16_at(message, 0)?;
        if count > LAST_CODE {
            return None;
        }
        let mut by_code = [None; LAST_CODE as usize + 1];
        // 2.5
        if count == 0 {
            return (message.len() == COUNT).then_some(Values { by_code });
        }
        let (mut code, mut start) = entry(message, 0)?;
        // 2.3: the first offset
        if !is_code(code) || start != COUNT + ENTRY * usize::from(count) || start >= message.len() {
            return None;
        }
        for i in 1..usize::from(count) {
            let (next_code, next_start) = entry(message, i)?;
            // 2.2
            if !is_code(next_code) || next_code <= code {
                return None;
            }
            // 2.3: the other offsets
            if next_start <= start || next_start >= message.len() {
                return None;
            }
            // 2.4: up to the next value
            by_code[usize::from(code)] = message.get(start..next_start);
            (code, start) = (next_code, next_start);
        }
        // 2.4: up to the end
        by_code[usize::from(code)] = message.get(start..);
        Some(Values { by_code })
    }

    /// The value of an element, None where the message does not have it.
    pub fn get(&self, code: u16) -> Option<&'a [u8]> {
        self.by_code.get(usize::from(code)).copied().flatten()
    }

    /// The value of an element that rule 7 or 11 has found present.
    pub fn present(&self, code: u16) -> &'a [u8] {
        self.get(code).unwrap_or(&[])
    }
}

fn is_code(code: u16) -> bool {
    (1..=LAST_CODE).contains(&code)
}

/// Entry i of the header: element code and offset.
fn entry(message: &[u8], i: usize) -> Option<(u16, usize)> {
    let at = COUNT + ENTRY * i;
    let code = u16_at(message, at)?;
    let offset = u16_at(message, at + U16)?;
    Some((code, usize::from(offset)))
}

fn u16_at(bytes: &[u8], at: usize) -> Option<u16> {
    match bytes.get(at..at + U16) {
        Some(&[low, high]) => Some(u16::from_le_bytes([low, high])),
        _ => None,
    }
}

/// Rule 5: is the layout of the message right?
pub fn layout_right(message: &[u8]) -> bool {
    Values::read(message).is_some()
}

/// The value of an element in a message whose layout is right. None where
/// the element is absent, or the layout wrong.
pub fn value(message: &[u8], code: u16) -> Option<&[u8]> {
    Values::read(message)?.get(code)
}
