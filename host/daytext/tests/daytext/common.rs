//! Short calls, messages laid out by hand, and random numbers.

use daytext::names::{ELEMENTS, VERDICTS};
use daytext::{Fault, Stop};

/// The bytes of a text that must be right.
pub fn encoded(text: impl AsRef<[u8]>) -> Vec<u8> {
    let mut bytes = Vec::new();
    match daytext::encode(text.as_ref(), &mut bytes) {
        Ok(()) => bytes,
        Err(stop) => panic!("{stop:?}"),
    }
}

/// Why a text is refused; nothing may have been written.
pub fn refused(text: impl AsRef<[u8]>) -> Fault {
    let mut bytes = Vec::new();
    let stop = daytext::encode(text.as_ref(), &mut bytes);
    assert!(bytes.is_empty(), "bytes before a refusal");
    fault(stop)
}

pub fn fault(result: Result<(), Stop>) -> Fault {
    match result {
        Err(Stop::Fault(fault)) => fault,
        other => panic!("no fault: {other:?}"),
    }
}

pub fn decoded(day: &[u8]) -> String {
    let mut text = Vec::new();
    daytext::decode(day, &mut text).unwrap();
    String::from_utf8(text).unwrap()
}

/// A right message: its count, its entries, its values.
pub fn message(elements: &[(u16, &[u8])]) -> Vec<u8> {
    let mut bytes = le(elements.len());
    let mut offset = 2 + 4 * elements.len();
    for (code, value) in elements {
        bytes.extend(code.to_le_bytes());
        bytes.extend(le(offset));
        offset += value.len();
    }
    for (_, value) in elements {
        bytes.extend_from_slice(value);
    }
    bytes
}

/// Messages with their lengths in front.
pub fn day(messages: &[Vec<u8>]) -> Vec<u8> {
    let mut bytes = Vec::new();
    for message in messages {
        bytes.extend(le(message.len()));
        bytes.extend(message);
    }
    bytes
}

fn le(number: usize) -> Vec<u8> {
    u16::try_from(number).unwrap().to_le_bytes().to_vec()
}

/// Xorshift random numbers from a fixed seed.
pub struct Random(u64);

impl Random {
    pub fn new(seed: u64) -> Self {
        assert_ne!(seed, 0);
        Random(seed)
    }

    pub fn below(&mut self, limit: usize) -> usize {
        self.0 ^= self.0 << 13;
        self.0 ^= self.0 >> 7;
        self.0 ^= self.0 << 17;
        usize::try_from(self.0 >> 16).unwrap() % limit
    }

    pub fn byte(&mut self) -> u8 {
        u8::try_from(self.below(256)).unwrap()
    }

    pub fn bytes(&mut self, length: usize) -> Vec<u8> {
        (0..length).map(|_| self.byte()).collect()
    }
}

/// The first number that is no verdict, and what is said of it.
pub fn no_verdict() -> (usize, String) {
    let last = VERDICTS.len() - 1;
    (last + 1, format!("the verdict is not one of 0 to {last}"))
}

/// The first number that is no element, and what is said of it.
pub fn no_element() -> (usize, String) {
    let last = ELEMENTS.len();
    (last + 1, format!("the element is not one of 0 to {last}"))
}
