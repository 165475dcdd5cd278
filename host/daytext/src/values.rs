//! Values as text: escapes and counters.

use crate::numbers::{decimal, decimal16, hex_pair};
use std::fmt::Write as _;
use std::io::Write as _;

/// A value whose counters are still open.
#[derive(Debug, Clone, Default)]
pub struct Value {
    pieces: Vec<Piece>,
}

#[derive(Debug, Clone)]
enum Piece {
    Bytes(Vec<u8>),
    Counter { shift: i128, width: u16 },
}

impl Value {
    pub fn parse(text: &[u8]) -> Result<Value, String> {
        let mut value = Value::default();
        let mut rest = text;
        while let Some((&first, behind)) = rest.split_first() {
            let (piece, next) = match first {
                b'\\' => escape(behind)?,
                b'{' => counter(behind)?,
                _ => plain(rest),
            };
            value.pieces.push(piece);
            rest = next;
        }
        Ok(value)
    }

    pub fn has_counter(&self) -> bool {
        let is_counter = |piece: &Piece| matches!(piece, Piece::Counter { .. });
        self.pieces.iter().any(is_counter)
    }

    /// Digits and counters, nothing else.
    pub fn is_number(&self) -> bool {
        self.pieces.iter().all(|piece| match piece {
            Piece::Bytes(bytes) => bytes.iter().all(u8::is_ascii_digit),
            Piece::Counter { .. } => true,
        })
    }

    /// Appends the value's bytes with n as the counter.
    pub fn put(&self, n: u64, out: &mut Vec<u8>) -> Result<(), String> {
        for piece in &self.pieces {
            match piece {
                Piece::Bytes(bytes) => out.extend_from_slice(bytes),
                Piece::Counter { shift, width } => put_counter(n, *shift, *width, out)?,
            }
        }
        Ok(())
    }
}

fn put_counter(n: u64, shift: i128, width: u16, out: &mut Vec<u8>) -> Result<(), String> {
    let number = i128::from(n) + shift;
    if number < 0 {
        return Err(format!("where the counter is {n} this comes to {number}"));
    }
    let width = usize::from(width);
    write!(out, "{number:0width$}").map_err(|error| error.to_string())
}

/// The bytes up to the next escape or counter.
fn plain(text: &[u8]) -> (Piece, &[u8]) {
    let special = text.iter().position(|byte| b"\\{".contains(byte));
    let (bytes, rest) = text.split_at(special.unwrap_or(text.len()));
    (Piece::Bytes(bytes.to_vec()), rest)
}

/// The byte that an escape means; the text starts behind the backslash.
fn escape(text: &[u8]) -> Result<(Piece, &[u8]), String> {
    let read = match text {
        [b'x', high, low, rest @ ..] => hex_pair(*high, *low).map(|byte| (byte, rest)),
        [byte @ (b'\\' | b'{'), rest @ ..] => Some((*byte, rest)),
        _ => None,
    };
    let (byte, rest) = read.ok_or(
        "behind a backslash stands x with two hexadecimal digits, a backslash or an opening brace",
    )?;
    Ok((Piece::Bytes(vec![byte]), rest))
}

/// A counter; the text starts behind its opening brace.
fn counter(text: &[u8]) -> Result<(Piece, &[u8]), String> {
    let wrong = "an opening brace starts a counter, as {n}, {n+400}, {n-1}, {n:6} or {n+400:6}; \
                 the brace itself is \\{";
    let end = text.iter().position(|&byte| byte == b'}').ok_or(wrong)?;
    let piece = counter_piece(&text[..end]).ok_or(wrong)?;
    Ok((piece, &text[end + 1..]))
}

fn counter_piece(inside: &[u8]) -> Option<Piece> {
    let behind = inside.strip_prefix(b"n")?;
    let colon = behind.iter().position(|&byte| byte == b':');
    let (shift, width) = match colon {
        Some(place) => (&behind[..place], decimal16(&behind[place + 1..])?),
        None => (behind, 0),
    };
    let shift = match shift {
        [] => 0,
        [b'+', digits @ ..] => i128::from(decimal(digits)?),
        [b'-', digits @ ..] => -i128::from(decimal(digits)?),
        _ => return None,
    };
    Some(Piece::Counter { shift, width })
}

/// Bytes as the text of a value. Spaces at either end are escaped, so that
/// they can be seen.
pub fn escaped(bytes: &[u8]) -> String {
    let mut text = String::new();
    for (place, &byte) in bytes.iter().enumerate() {
        let at_end = place == 0 || place + 1 == bytes.len();
        match byte {
            b'\\' => text.push_str("\\\\"),
            b'{' => text.push_str("\\{"),
            b'!'..=b'~' => text.push(char::from(byte)),
            b' ' if !at_end => text.push(' '),
            _ => push_hex(&mut text, byte),
        }
    }
    text
}

fn push_hex(text: &mut String, byte: u8) {
    // Writing to a string cannot fail.
    let _ = write!(text, "\\x{byte:02x}");
}

/// The longest value that `shown` shows whole: the longest right UTI has 52.
const SHOWN: usize = 60;

/// Bytes for a sentence: escaped, and not too many of them.
pub fn shown(bytes: &[u8]) -> String {
    match bytes.get(..SHOWN) {
        Some(start) if bytes.len() > SHOWN => escaped(start) + "...",
        _ => escaped(bytes),
    }
}
