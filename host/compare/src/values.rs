//! Random values that keep their form.

use crate::codes::{CURRENCIES, LOCATIONS};
use crate::layout::{Caps, Num, DATE_SIZE, DAY_CAPS, LARGEST_CAP, LEI_BODY_SIZE, LINE_SIZE};
use crate::layout::{LONGEST_PACKAGE_IDENTIFIER, NOTIONAL_NUM};
use crate::layout::{NOTIONAL_SIZE, SHORTEST_UTI, SMALLEST_CAP, TOTALS, UTI_SIZE};
use crate::lists::{BANDS, CLASSES, LARGEST_STEP};
use crate::random::Random;
use crate::terms::{masked, rounded, shown_price, UNIT};

/// Capitals and digits.
pub const CAPITALS_DIGITS: &[u8] = b"ABCDEFGHIJKLMNOPQRSTUVWXYZ0123456789";
/// Capitals.
pub const CAPITALS: &[u8] = b"ABCDEFGHIJKLMNOPQRSTUVWXYZ";
/// Letters of both cases and digits.
pub const LETTERS_DIGITS: &[u8] = b"ABCDEFGHIJKLMNOPQRSTUVWXYZabcdefghijklmnopqrstuvwxyz0123456789";
/// Digits.
pub const DIGITS: &[u8] = b"0123456789";

/// The most bytes behind the line in a tape buffer.
const SPARE: usize = 50;

/// The length of a tape buffer that takes a line.
pub fn tape_length(random: &mut Random) -> usize {
    random.between(LINE_SIZE, LINE_SIZE + SPARE)
}

/// The length of a tape buffer, seldom too short.
pub fn any_tape_length(random: &mut Random) -> usize {
    if random.once_in(15) {
        return random.below(LINE_SIZE);
    }
    tape_length(random)
}

/// A UTI, often of a length at a bound.
pub fn uti(random: &mut Random) -> Vec<u8> {
    let length = *random.pick(&[
        SHORTEST_UTI,
        SHORTEST_UTI + 1,
        35,
        42,
        UTI_SIZE - 1,
        UTI_SIZE,
    ]);
    random.text(length, CAPITALS_DIGITS)
}

/// UTIs that are all different, many of them alike in length or beginning.
pub fn utis(random: &mut Random, count: usize) -> Vec<Vec<u8>> {
    let mut utis: Vec<Vec<u8>> = Vec::new();
    while utis.len() < count {
        let next = match utis.last() {
            Some(last) if !random.once_in(4) => similar_uti(random, &last.clone()),
            _ => uti(random),
        };
        if !utis.contains(&next) {
            utis.push(next);
        }
    }
    utis
}

/// A UTI that differs from another in one character or in its end.
pub fn similar_uti(random: &mut Random, other: &[u8]) -> Vec<u8> {
    let mut uti = other.to_vec();
    let last = uti.len() - 1;
    match random.below(5) {
        0 if uti.len() < UTI_SIZE => uti.push(*random.pick(CAPITALS_DIGITS)),
        1 if uti.len() > SHORTEST_UTI => uti.truncate(last),
        2 => uti[0] = *random.pick(CAPITALS_DIGITS),
        3 => uti[last] = *random.pick(CAPITALS_DIGITS),
        _ => uti[last / 2] = *random.pick(CAPITALS_DIGITS),
    }
    uti
}

/// A LEI with the check digits that its other characters need.
pub fn lei(random: &mut Random) -> Vec<u8> {
    let body = random.text(LEI_BODY_SIZE, CAPITALS_DIGITS);
    lei_of(&body)
}

/// The LEI that opens with these characters.
pub fn lei_of(body: &[u8]) -> Vec<u8> {
    let mut lei = body.to_vec();
    lei.extend(b"00");
    let check = 98 - remainder(&lei);
    lei.truncate(body.len());
    lei.extend(format!("{check:02}").as_bytes());
    lei
}

/// The remainder by 97, with A to Z read as 10 to 35.
pub fn remainder(characters: &[u8]) -> u32 {
    characters.iter().fold(0, |rest, &byte| match byte {
        b'0'..=b'9' => (10 * rest + u32::from(byte - b'0')) % 97,
        _ => (100 * rest + u32::from(byte - b'A') + 10) % 97,
    })
}

/// A date between two years.
fn date_between(random: &mut Random, first: usize, last: usize) -> Vec<u8> {
    let year = random.between(first, last);
    let month = random.between(1, 12);
    let longest = random.once_in(4);
    let days = days_in(year, month);
    let day = if longest {
        days
    } else {
        random.between(1, days)
    };
    format!("{year:04}-{month:02}-{day:02}").into_bytes()
}

fn days_in(year: usize, month: usize) -> usize {
    let leap = (year.is_multiple_of(4) && !year.is_multiple_of(100)) || year.is_multiple_of(400);
    match month {
        2 if leap => 29,
        2 => 28,
        4 | 6 | 9 | 11 => 30,
        _ => 31,
    }
}

/// A date, most often of our days.
pub fn date(random: &mut Random) -> Vec<u8> {
    match random.below(8) {
        0 => date_between(random, 1900, 9999),
        1 => date_between(random, 2000, 2000),
        _ => date_between(random, 2018, 2031),
    }
}

/// A date that is not before another.
pub fn date_from(random: &mut Random, earliest: &[u8]) -> Vec<u8> {
    let other = date(random);
    if other.as_slice() >= earliest && !random.once_in(5) {
        return other;
    }
    earliest.to_vec()
}

/// A time.
pub fn time(random: &mut Random) -> Vec<u8> {
    let mut time = date(random);
    time.extend(clock(random));
    time
}

/// The part of a time after the date.
fn clock(random: &mut Random) -> Vec<u8> {
    let (hour, minute, second) = match random.below(6) {
        0 => (0, 0, 0),
        1 => (23, 59, 59),
        _ => (random.below(24), random.below(60), random.below(60)),
    };
    format!("T{hour:02}:{minute:02}:{second:02}Z").into_bytes()
}

/// A time that is not before another.
pub fn time_from(random: &mut Random, earliest: &[u8]) -> Vec<u8> {
    let mut other = time(random);
    if random.once_in(3) {
        other[..DATE_SIZE].copy_from_slice(&earliest[..DATE_SIZE]);
    }
    if other.as_slice() >= earliest && !random.once_in(5) {
        return other;
    }
    earliest.to_vec()
}

/// A currency of the list.
pub fn currency(random: &mut Random) -> Vec<u8> {
    random.pick(&CURRENCIES).as_bytes().to_vec()
}

/// A settlement location of the list.
pub fn location(random: &mut Random) -> Vec<u8> {
    random.pick(&LOCATIONS).as_bytes().to_vec()
}

/// A package identifier, often of a length at a bound.
pub fn package_identifier(random: &mut Random) -> Vec<u8> {
    let longest = LONGEST_PACKAGE_IDENTIFIER;
    let length = *random.pick(&[1, 2, 20, longest - 1, longest]);
    random.text(length, LETTERS_DIGITS)
}

/// An amount that keeps the form of a notional.
pub fn amount(random: &mut Random) -> Vec<u8> {
    match random.below(4) {
        0 => any_amount(random),
        1 => amount_beside_landmark(random),
        _ => {
            let digits = random.between(1, NOTIONAL_SIZE);
            with_decimals(random, digits)
        }
    }
}

/// An amount of any length that the form allows.
fn any_amount(random: &mut Random) -> Vec<u8> {
    let digits = random.between(1, NOTIONAL_NUM.digits);
    if digits + NOTIONAL_NUM.after_point <= NOTIONAL_NUM.digits {
        return with_decimals(random, digits);
    }
    random.text(digits, DIGITS)
}

fn with_decimals(random: &mut Random, digits: usize) -> Vec<u8> {
    let mut text = random.text(digits, DIGITS);
    if random.once_in(2) {
        text.push(b'.');
        let after = random.between(1, NOTIONAL_NUM.after_point);
        text.extend(random.text(after, DIGITS));
    }
    text
}

/// Where the rounding of amounts changes: a band's end, or a tie before or
/// after it; or another amount of interest.
fn landmark(random: &mut Random) -> u64 {
    let at = random.below(BANDS.len());
    let (end, step) = BANDS[at];
    let next_step = BANDS.get(at + 1).map_or(LARGEST_STEP, |band| band.1);
    *random.pick(&[
        0,
        step,
        end - step / 2,
        end,
        end + next_step / 2,
        LARGEST_CAP,
    ])
}

/// A landmark, or an amount 0.00001 or 1 beside it.
fn amount_beside_landmark(random: &mut Random) -> Vec<u8> {
    let landmark = landmark(random);
    let below = landmark.saturating_sub(1);
    match random.below(6) {
        0 => format!("{below}.99999"),
        1 => format!("{landmark}.00001"),
        2 => format!("{below}"),
        3 => format!("{}", landmark + 1),
        4 => format!("000{landmark}.0"),
        _ => format!("{landmark}"),
    }
    .into_bytes()
}

/// Another amount that is masked alike under the cap, or the same one.
pub fn amount_masked_alike(random: &mut Random, amount: &[u8], cap: u64) -> Vec<u8> {
    let due = masked(amount, cap);
    for _ in 0..20 {
        let other = match random.below(3) {
            0 => beside(random, due),
            1 => self::amount(random),
            _ => [b"0", amount].concat(),
        };
        if other != amount && has_at_most(&other, NOTIONAL_NUM) && masked(&other, cap) == due {
            return other;
        }
    }
    amount.to_vec()
}

/// An amount near to what a line shows.
fn beside(random: &mut Random, shown: (u64, bool)) -> Vec<u8> {
    let (number, plus) = shown;
    let distance = random.bits() % (1 + number / 8);
    let other = if plus || random.once_in(2) {
        number + distance
    } else {
        number - distance
    };
    format!("{other}.{}", random.below(UNIT as usize)).into_bytes()
}

/// Whether a number that one of the generators made has few enough digits.
fn has_at_most(number: &[u8], most: Num) -> bool {
    let digits = number.iter().filter(|byte| byte.is_ascii_digit()).count();
    let point = number.iter().position(|&byte| byte == b'.');
    let after = point.map_or(0, |at| number.len() - at - 1);
    digits <= most.digits && after <= most.after_point
}

/// Another spelling of a price or a spread of at most so many digits, or the
/// same one.
pub fn price_shown_alike(random: &mut Random, price: &[u8], most: Num) -> Vec<u8> {
    let sign = usize::from(price.starts_with(b"-"));
    let zeros_behind: &[u8] = if price.contains(&b'.') { b"00" } else { b".0" };
    let other = match random.below(4) {
        0 => [&price[..sign], b"0", &price[sign..]].concat(),
        1 => [price, zeros_behind].concat(),
        2 => shown_price(price),
        _ => price.to_vec(),
    };
    if has_at_most(&other, most) {
        return other;
    }
    price.to_vec()
}

/// A price or a spread of at most so many digits.
pub fn price(random: &mut Random, most: Num) -> Vec<u8> {
    let mut text = Vec::new();
    if random.once_in(3) {
        text.push(b'-');
    }
    let after = if most.after_point == 0 || random.once_in(4) {
        0
    } else {
        random.between(1, most.after_point)
    };
    let whole = random.between(1, most.digits - after);
    let alphabet: &[u8] = if random.once_in(3) { b"00001" } else { DIGITS };
    text.extend(random.text(whole, alphabet));
    if after > 0 {
        text.push(b'.');
        text.extend(random.text(after, alphabet));
    }
    text
}

/// A cap: a number in the range of caps that is its own rounded amount.
pub fn cap(random: &mut Random) -> u64 {
    let places = LARGEST_CAP.ilog10() - SMALLEST_CAP.ilog10();
    let least = SMALLEST_CAP * 10u64.pow(random.below(places as usize) as u32);
    let number = least + random.bits() % (9 * least);
    let rounded = rounded(u128::from(number) * UNIT);
    u64::try_from(rounded).expect("a number that is no larger than the largest cap")
}

/// Five caps, most often different.
pub fn caps(random: &mut Random) -> Caps {
    match random.below(5) {
        0 => [LARGEST_CAP; CLASSES.len()],
        1 => DAY_CAPS,
        2 => [
            SMALLEST_CAP,
            250_000_000,
            10_000,
            1_000_000_000,
            100_000_000_000,
        ],
        _ => std::array::from_fn(|_| cap(random)),
    }
}

/// Totals that add up to so many rows.
pub fn totals(random: &mut Random, rows: u32) -> [u32; TOTALS] {
    let mut totals = [0; TOTALS];
    for _ in 0..rows {
        totals[random.below(TOTALS)] += 1;
    }
    totals
}
