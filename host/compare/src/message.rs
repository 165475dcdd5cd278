//! Messages: elements by code, and their bytes.

use crate::layout::{COUNT_SIZE, ENTRY_SIZE, OFFSET_IN_ENTRY, U16_SIZE};
use crate::lists::{codes, is_code, LAST_CODE};

/// The elements of a message by code.
#[derive(Clone, Debug, Default, PartialEq, Eq)]
pub struct Message {
    values: [Option<Vec<u8>>; LAST_CODE as usize + 1],
}

impl Message {
    /// Sets an element.
    pub fn set(&mut self, code: u8, value: impl AsRef<[u8]>) -> &mut Self {
        self.values[usize::from(code)] = Some(value.as_ref().to_vec());
        self
    }

    /// Takes an element out.
    pub fn remove(&mut self, code: u8) -> &mut Self {
        self.values[usize::from(code)] = None;
        self
    }

    /// The same message with an element set.
    pub fn with(&self, code: u8, value: impl AsRef<[u8]>) -> Self {
        let mut changed = self.clone();
        changed.set(code, value);
        changed
    }

    /// The same message without an element.
    pub fn without(&self, code: u8) -> Self {
        let mut changed = self.clone();
        changed.remove(code);
        changed
    }

    /// An element's value.
    pub fn get(&self, code: u8) -> Option<&[u8]> {
        self.values[usize::from(code)].as_deref()
    }

    /// An element's value, empty where it is missing.
    pub fn value(&self, code: u8) -> &[u8] {
        self.get(code).unwrap_or_default()
    }

    /// An element's value as text, as of an action or event.
    pub fn text(&self, code: u8) -> String {
        String::from_utf8_lossy(self.value(code)).into_owned()
    }

    /// Whether the element is there.
    pub fn has(&self, code: u8) -> bool {
        self.get(code).is_some()
    }

    /// The codes that are there, rising.
    pub fn codes(&self) -> Vec<u8> {
        codes().filter(|&code| self.has(code)).collect()
    }

    /// The message's bytes: count, entries, values.
    pub fn encode(&self) -> Vec<u8> {
        let codes = self.codes();
        let mut bytes = (codes.len() as u16).to_le_bytes().to_vec();
        let mut offset = COUNT_SIZE + ENTRY_SIZE * codes.len();
        for &code in &codes {
            bytes.extend(u16::from(code).to_le_bytes());
            bytes.extend((offset as u16).to_le_bytes());
            offset += self.value(code).len();
        }
        for &code in &codes {
            bytes.extend(self.value(code));
        }
        bytes
    }

    /// The elements of a message whose layout is right.
    pub fn decode(bytes: &[u8]) -> Option<Message> {
        let count = number(bytes, 0)?;
        let places = (0..count).map(|n| COUNT_SIZE + ENTRY_SIZE * n);
        let mut starts = Vec::new();
        for place in places {
            let code = u8::try_from(number(bytes, place)?).ok()?;
            if !is_code(code) {
                return None;
            }
            starts.push((code, number(bytes, place + OFFSET_IN_ENTRY)?));
        }
        let mut message = Message::default();
        for (n, &(code, start)) in starts.iter().enumerate() {
            let end = starts.get(n + 1).map_or(bytes.len(), |next| next.1);
            message.set(code, bytes.get(start..end)?);
        }
        (message.encode() == bytes && !message.values.contains(&Some(Vec::new())))
            .then_some(message)
    }
}

fn number(bytes: &[u8], at: usize) -> Option<usize> {
    let pair = bytes.get(at..at + U16_SIZE)?;
    Some(usize::from(pair[0]) + 256 * usize::from(pair[1]))
}

/// Readable text for bytes, ASCII as it is.
pub fn readable(bytes: &[u8]) -> String {
    bytes.escape_ascii().to_string()
}

/// A message element by element, or its bytes where it cannot be taken apart.
pub fn described(bytes: &[u8]) -> String {
    let mut text = format!("message of {} bytes\n", bytes.len());
    match Message::decode(bytes) {
        Some(message) => {
            for code in message.codes() {
                text += &format!("  {code:2} {}\n", readable(message.value(code)));
            }
        }
        None => text += &format!("  as bytes {}\n", readable(bytes)),
    }
    text
}

#[cfg(test)]
mod tests {
    use super::Message;

    #[test]
    fn the_bytes_are_those_of_the_specification() {
        let mut message = Message::default();
        assert_eq!(message.encode(), [0, 0]);
        message.set(2, b"NEWT").set(5, b"x").set(9, b"yz");
        let bytes = b"\x03\0\x02\0\x0e\0\x05\0\x12\0\x09\0\x13\0NEWTxyz";
        assert_eq!(message.encode(), bytes);
        assert_eq!(Message::decode(bytes), Some(message));
        assert_eq!(Message::decode(&bytes[..bytes.len() - 2]), None);
        assert_eq!(Message::decode(&[0, 0]), Some(Message::default()));
    }
}
