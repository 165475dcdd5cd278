//! Section 4: the forms of values. Text is ASCII. Currencies and locations are
//! in lists.rs.

use crate::sizes::{DATE, UTI, WORD};

/// Code 1: 21 to 52 capitals or digits.
pub fn is_uti(v: &[u8]) -> bool {
    (21..=UTI).contains(&v.len()) && v.iter().all(|&b| is_capital_or_digit(b))
}

/// Code 3: 4 capitals.
pub fn is_event(v: &[u8]) -> bool {
    v.len() == WORD && v.iter().all(u8::is_ascii_uppercase)
}

/// Date: YYYY-MM-DD, a Gregorian date, years 1900 to 9999.
pub fn is_date(v: &[u8]) -> bool {
    let &[y1, y2, y3, y4, b'-', m1, m2, b'-', d1, d2] = v else {
        return false;
    };
    let (Some(century), Some(year), Some(month), Some(day)) = (
        two_digits(y1, y2),
        two_digits(y3, y4),
        two_digits(m1, m2),
        two_digits(d1, d2),
    ) else {
        return false;
    };
    let year = century * 100 + year;
    year >= 1900 && (1..=days_in(year, month)).contains(&day)
}

/// Time: date, T, hh:mm:ss, Z, with seconds 00 to 59.
/// Hours run from 00 to 23 and minutes from 00 to 59.
pub fn is_time(v: &[u8]) -> bool {
    let Some((date, time)) = v.split_at_checked(DATE) else {
        return false;
    };
    let &[b'T', h1, h2, b':', m1, m2, b':', s1, s2, b'Z'] = time else {
        return false;
    };
    let (Some(hour), Some(minute), Some(second)) =
        (two_digits(h1, h2), two_digits(m1, m2), two_digits(s1, s2))
    else {
        return false;
    };
    hour <= 23 && minute <= 59 && second <= 59 && is_date(date)
}

/// Days of a month, 0 where there is no such month.
fn days_in(year: u32, month: u32) -> u32 {
    match month {
        1 | 3 | 5 | 7 | 8 | 10 | 12 => 31,
        4 | 6 | 9 | 11 => 30,
        2 if is_leap(year) => 29,
        2 => 28,
        _ => 0,
    }
}

/// The Gregorian rule.
fn is_leap(year: u32) -> bool {
    match (year % 4, year % 100, year % 400) {
        (_, _, 0) => true,
        (_, 0, _) => false,
        (fours, _, _) => fours == 0,
    }
}

fn two_digits(tens: u8, ones: u8) -> Option<u32> {
    if tens.is_ascii_digit() && ones.is_ascii_digit() {
        Some(u32::from(tens - b'0') * 10 + u32::from(ones - b'0'))
    } else {
        None
    }
}

/// LEI (ISO 17442): 18 capitals or digits, then two digits; with A to Z read
/// as 10 to 35 the whole number leaves 1 when divided by 97.
pub fn is_lei(v: &[u8]) -> bool {
    let Some((body, check)) = v.split_at_checked(18) else {
        return false;
    };
    if check.len() != 2 || !check.iter().all(u8::is_ascii_digit) {
        return false;
    }
    if !body.iter().all(|&b| is_capital_or_digit(b)) {
        return false;
    }
    let mut left = 0;
    for &b in v {
        left = if b.is_ascii_digit() {
            left * 10 + u32::from(b - b'0')
        } else {
            left * 100 + u32::from(b - b'A') + 10
        } % 97;
    }
    left == 1
}

/// Truth: True, False, true or false.
pub fn is_truth(v: &[u8]) -> bool {
    matches!(v, b"True" | b"False" | b"true" | b"false")
}

/// Is a value of the form 'truth' true?
pub fn is_true(v: &[u8]) -> bool {
    matches!(v, b"True" | b"true")
}

/// Code 10: Y, N or I.
pub fn is_cleared(v: &[u8]) -> bool {
    matches!(v, b"Y" | b"N" | b"I")
}

/// Code 14: POST, PREA or UNAL.
pub fn is_allocation(v: &[u8]) -> bool {
    matches!(v, b"POST" | b"PREA" | b"UNAL")
}

/// Code 16: 1 to 100 letters or digits.
pub fn is_package_identifier(v: &[u8]) -> bool {
    (1..=100).contains(&v.len()) && v.iter().all(u8::is_ascii_alphanumeric)
}

/// Code 18: 1 or 3.
pub fn is_price_notation(v: &[u8]) -> bool {
    matches!(v, b"1" | b"3")
}

/// Code 27: 1, 3 or 4.
pub fn is_spread_notation(v: &[u8]) -> bool {
    matches!(v, b"1" | b"3" | b"4")
}

/// Code 25: CR, IR, FX, EQ or CO.
pub fn is_asset_class(v: &[u8]) -> bool {
    asset_class_place(v).is_some()
}

/// The place of an asset class in the order of the caps: CR, IR, FX, EQ, CO.
pub fn asset_class_place(v: &[u8]) -> Option<usize> {
    match v {
        b"CR" => Some(0),
        b"IR" => Some(1),
        b"FX" => Some(2),
        b"EQ" => Some(3),
        b"CO" => Some(4),
        _ => None,
    }
}

/// Code 20: Num(25,5), no minus.
pub fn is_notional(v: &[u8]) -> bool {
    is_num(v, 25, 5)
}

/// Codes 17 and 26 as rule 9 holds them: perhaps a minus, then a number of at
/// most 18 digits, 13 after the point. What notations 3 and 4 ask more is rule 12.
pub fn is_price(v: &[u8]) -> bool {
    is_num(without_minus(v), 18, 13)
}

/// A price or spread without the minus it may open with.
pub fn without_minus(v: &[u8]) -> &[u8] {
    v.strip_prefix(b"-").unwrap_or(v)
}

/// Num(a,b): one or more digits, then perhaps a point and one or more digits;
/// at most a digits in all and b after the point. Leading zeros count.
fn is_num(v: &[u8], in_all: usize, after_point: usize) -> bool {
    let (before, after) = split_at_point(v);
    if !is_digits(before) || before.len() > in_all {
        return false;
    }
    match after {
        None => true,
        Some(after) => {
            is_digits(after) && after.len() <= after_point && before.len() + after.len() <= in_all
        }
    }
}

/// The part before the first point and, where there is a point, that after it.
pub fn split_at_point(v: &[u8]) -> (&[u8], Option<&[u8]>) {
    match v.iter().position(|&b| b == b'.') {
        Some(at) => (&v[..at], Some(&v[at + 1..])),
        None => (v, None),
    }
}

/// One or more digits.
fn is_digits(v: &[u8]) -> bool {
    !v.is_empty() && v.iter().all(u8::is_ascii_digit)
}

fn is_capital_or_digit(b: u8) -> bool {
    b.is_ascii_uppercase() || b.is_ascii_digit()
}
