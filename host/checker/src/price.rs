//! The package price, code 17, and the package spread, code 26, which is written
//! as the price is: rule 12, and how the tape line shows them.

use crate::forms::{is_price, split_at_point, without_minus};
use crate::sizes::PRICE;

/// Rule 12: with notation 3 there are at most 11 digits, 10 after the point;
/// with notation 4 at most 5, none after the point.
pub fn price_too_long(v: &[u8], notation: &[u8]) -> bool {
    let (in_all, after_point) = match notation {
        b"3" => (11, 10),
        b"4" => (5, 0),
        // the limits of the form, which are rule 9's
        _ => return false,
    };
    let (before, after) = split_at_point(without_minus(v));
    let after = after.map_or(0, <[u8]>::len);
    before.len() + after > in_all || after > after_point
}

/// The bytes of the line's field and the length without padding. None
/// where the bytes are not a price.
pub fn shown_price(v: &[u8]) -> Option<([u8; PRICE], usize)> {
    is_price(v).then(|| shown(v))
}

/// The same for bytes already found to be a price. It has at most a minus,
/// 18 digits and a point, which the field takes.
pub fn shown(v: &[u8]) -> ([u8; PRICE], usize) {
    let (before, after) = split_at_point(without_minus(v));
    let before = without_leading_zeros(before);
    let after = without_trailing_zeros(after.unwrap_or(&[]));
    // zero has no minus
    let is_zero = before.is_empty() && after.is_empty();

    let mut field = [b' '; PRICE];
    let mut length = 0;
    if v.starts_with(b"-") && !is_zero {
        append(&mut field, &mut length, b"-");
    }
    // one digit stays before the point, and of a whole price too
    if before.is_empty() {
        append(&mut field, &mut length, b"0");
    }
    append(&mut field, &mut length, before);
    // no point without decimals
    if !after.is_empty() {
        append(&mut field, &mut length, b".");
        append(&mut field, &mut length, after);
    }
    (field, length)
}

fn append(field: &mut [u8; PRICE], length: &mut usize, part: &[u8]) {
    for &b in part {
        if let Some(place) = field.get_mut(*length) {
            *place = b;
            *length += 1;
        }
    }
}

fn without_leading_zeros(v: &[u8]) -> &[u8] {
    let zeros = v.iter().take_while(|&&b| b == b'0').count();
    &v[zeros..]
}

fn without_trailing_zeros(v: &[u8]) -> &[u8] {
    let zeros = v.iter().rev().take_while(|&&b| b == b'0').count();
    &v[..v.len() - zeros]
}
