//! Decimal and hexadecimal numbers in text.

/// The number that a text of decimal digits alone means.
pub fn decimal(text: &[u8]) -> Option<u64> {
    if text.is_empty() {
        return None;
    }
    text.iter().try_fold(0u64, |number, &byte| {
        let digit = byte.is_ascii_digit().then(|| u64::from(byte - b'0'))?;
        number.checked_mul(10)?.checked_add(digit)
    })
}

/// As `decimal`, for numbers that go into 16 bits.
pub fn decimal16(text: &[u8]) -> Option<u16> {
    u16::try_from(decimal(text)?).ok()
}

/// The byte that two hexadecimal digits mean.
pub fn hex_pair(high: u8, low: u8) -> Option<u8> {
    Some(hex_digit(high)? * 16 + hex_digit(low)?)
}

fn hex_digit(digit: u8) -> Option<u8> {
    match digit {
        b'0'..=b'9' => Some(digit - b'0'),
        b'a'..=b'f' => Some(digit - b'a' + 10),
        b'A'..=b'F' => Some(digit - b'A' + 10),
        _ => None,
    }
}

/// The little-endian number in the two bytes at a place.
pub fn u16_at(bytes: &[u8], place: usize) -> Option<u16> {
    let pair = bytes.get(place..)?.first_chunk()?;
    Some(u16::from_le_bytes(*pair))
}
