//! Legal entity identifiers (clause 4.15). What is due comes from the whole
//! number that an identifier spells: it is written out in decimal digits and
//! divided by 97 at once. No remainder is kept while the characters are read.

use compare::compared::Compared;
use compare::layout::{DAY_CAPS, LEI_BODY_SIZE};
use compare::message::{readable, Message};
use compare::random::Random;
use compare::sound::plain_new;
use compare::submissions;
use compare::values::{CAPITALS, CAPITALS_DIGITS, DIGITS};
use std::collections::{BTreeMap, BTreeSet};

/// The characters of a LEI.
const SIZE: usize = LEI_BODY_SIZE + 2;

/// The whole number that capitals and digits spell, A as 10 up to Z as 35. 18
/// letters and 2 digits make 38 decimal digits, which fit.
fn whole(characters: &[u8]) -> u128 {
    let mut digits = String::new();
    for &byte in characters {
        match byte {
            b'A'..=b'Z' => digits += &(byte - b'A' + 10).to_string(),
            _ => digits.push(char::from(byte)),
        }
    }
    digits.parse().expect("a number of at most 38 digits")
}

/// Whether a value is a LEI.
fn is_right(value: &[u8]) -> bool {
    value.len() == SIZE
        && value.iter().all(|byte| CAPITALS_DIGITS.contains(byte))
        && value[LEI_BODY_SIZE..].iter().all(u8::is_ascii_digit)
        && whole(value) % 97 == 1
}

/// B65 by hand, the quotients of the others by Python's big integers.
#[test]
fn whole_numbers() {
    assert_eq!(whole(b"B65"), 1_165);
    assert_eq!(1_165, 12 * 97 + 1);
    let number = 5_493_008_430_202_131_223_422_132_816;
    assert_eq!(whole(b"54930084UKLVMY22DS16"), number);
    assert_eq!(number, 56_628_952_888_681_765_189_918_895 * 97 + 1);
    let number = 35_353_535_353_535_353_535_353_535_353_535_353_540;
    assert_eq!(whole(b"ZZZZZZZZZZZZZZZZZZ40"), number);
    assert_eq!(
        number,
        364_469_436_634_385_087_993_335_416_015_828_387 * 97 + 1
    );
}

/// A counterparty of a MODI about the plain swap, which is live. No line shows
/// counterparties: where the LEI is right the MODI is accepted and changes no
/// byte, so that one ledger serves all values.
struct Place {
    element: u8,
    message: Message,
    compared: Compared,
    ledger: Vec<u8>,
}

/// Both counterparties.
fn places() -> [Place; 2] {
    [23, 24].map(|element| {
        let mut compared = Compared::opened(2, &DAY_CAPS);
        assert_eq!(compared.submit(&plain_new().encode()).identifier, 1);
        Place {
            element,
            message: plain_new().with(2, "MODI"),
            ledger: compared.ledger().to_vec(),
            compared,
        }
    })
}

impl Place {
    /// Submits the MODI with this value, which is judged as the whole number
    /// says. Says whether it is accepted.
    fn accepts(&mut self, value: &[u8]) -> bool {
        let wrong = (9, self.element);
        let due = if is_right(value) { (0, 0) } else { wrong };
        self.message.set(self.element, value);
        let answer = self.compared.submit(&self.message.encode());
        let answered = (answer.verdict, answer.element);
        assert_eq!(answered, due, "{}: {}", self.element, readable(value));
        assert!(self.compared.ledger() == self.ledger, "{}", readable(value));
        answer.verdict == 0
    }
}

/// The value with another character.
fn changed(value: &[u8], at: usize, byte: u8) -> Vec<u8> {
    [&value[..at], &[byte], &value[at + 1..]].concat()
}

/// The value with two neighbours exchanged.
fn exchanged(value: &[u8], at: usize) -> Vec<u8> {
    let mut value = value.to_vec();
    value.swap(at, at + 1);
    value
}

/// The value with this pair of check digits, from 0 to 99.
fn with_check(value: &[u8], pair: usize) -> Vec<u8> {
    [&value[..LEI_BODY_SIZE], format!("{pair:02}").as_bytes()].concat()
}

// Samples.

/// A sample of ISO 17442, and the letters for digits and digits for letters in
/// it that are not noticed, with their places from 0: by Python's big integers.
type Sample = (&'static [u8; SIZE], &'static [(usize, u8)]);

const SAMPLES: [Sample; 3] = [
    (
        b"54930084UKLVMY22DS16",
        &[(6, b'S'), (9, b'0'), (14, b'T'), (17, b'8')],
    ),
    (b"213800WSGIIZCXF1P572", &[(1, b'F'), (4, b'S'), (15, b'G')]),
    (b"5493000IBP32UQZ0KL24", &[(6, b'K'), (9, b'1'), (15, b'O')]),
];

/// Each sample at each of the two places.
fn samples() -> impl Iterator<Item = (Place, Sample)> {
    let at_both = |sample| places().map(|place| (place, sample));
    SAMPLES.into_iter().flat_map(at_both)
}

#[test]
fn samples_are_accepted() {
    for (mut place, (sample, _)) in samples() {
        assert!(place.accepts(sample));
        let new = plain_new().with(place.element, sample);
        let answer = Compared::opened(2, &DAY_CAPS).submit(&new.encode());
        assert_eq!((answer.verdict, answer.identifier), (0, 1));
    }
}

/// Every byte at every place. A digit for another or a letter for another is
/// always noticed: 97 divides no difference of 1 to 25 times a power of ten.
#[test]
fn samples_with_one_byte_changed() {
    for (mut place, (sample, due)) in samples() {
        let mut unnoticed = Vec::new();
        for (at, &old) in sample.iter().enumerate() {
            for new in 0..=255 {
                let accepted = place.accepts(&changed(sample, at, new));
                let of_a_kind = match old {
                    b'0'..=b'9' => new.is_ascii_digit(),
                    _ => new.is_ascii_uppercase(),
                };
                if of_a_kind {
                    assert_eq!(accepted, old == new);
                } else if accepted {
                    unnoticed.push((at, new));
                }
            }
        }
        assert_eq!(unnoticed, due);
    }
}

/// Equal neighbours alone may be exchanged: no B stands beside a 1, no M beside
/// a 2, no X beside a 3. No other check digits leave the same remainder.
#[test]
fn samples_with_neighbours_exchanged_and_with_other_check_digits() {
    for (mut place, (sample, _)) in samples() {
        for at in 0..SIZE - 1 {
            let accepted = place.accepts(&exchanged(sample, at));
            assert_eq!(accepted, sample[at] == sample[at + 1], "{at}");
        }
        for pair in 0..100 {
            let value = with_check(sample, pair);
            assert_eq!(place.accepts(&value), value == sample, "{pair}");
        }
    }
}

/// A byte that may not stand at its place is refused with every pair of digits
/// at two other places: one of them would fit, whatever the byte were worth.
#[test]
fn samples_with_other_bytes_and_every_pair_of_digits() {
    for ((mut place, (sample, _)), at) in samples().zip([0, 18, 7, 17, 12, 19]) {
        let (admitted, digits) = match at {
            18.. => (DIGITS, 16..18),
            _ => (CAPITALS_DIGITS, 18..20),
        };
        for byte in (0..=255).filter(|byte| !admitted.contains(byte)) {
            let mut value = changed(sample, at, byte);
            for pair in 0..100 {
                value[digits.clone()].copy_from_slice(format!("{pair:02}").as_bytes());
                assert!(!place.accepts(&value));
            }
        }
    }
}

#[test]
fn samples_of_other_lengths_and_in_small_letters() {
    for (mut place, (sample, _)) in samples() {
        for at in 0..SIZE {
            let cut = [&sample[..at], &sample[at + 1..]].concat();
            assert!(!place.accepts(&cut));
            let small = changed(sample, at, sample[at].to_ascii_lowercase());
            assert_eq!(place.accepts(&small), sample[at].is_ascii_digit());
        }
        assert!(!place.accepts(&sample.to_ascii_lowercase()));
        for more in 0..=255 {
            assert!(!place.accepts(&[&sample[..], &[more]].concat()));
            assert!(!place.accepts(&[&[more], &sample[..]].concat()));
        }
    }
}

/// Numbers that leave 1, behind zeros.
#[test]
fn small_numbers_of_every_length() {
    for mut place in places() {
        for number in ["1", "98", "B65"] {
            for length in number.len()..=100 {
                let value = format!("{number:0>length$}");
                assert_eq!(place.accepts(value.as_bytes()), length == SIZE);
            }
        }
    }
}

// Random identifiers.

/// Random characters, and check digits with which they are right.
fn right_identifier(random: &mut Random) -> Vec<u8> {
    let alphabet = *random.pick(&[CAPITALS_DIGITS, CAPITALS_DIGITS, b"123BMX"]);
    let body = random.text(LEI_BODY_SIZE, alphabet);
    let number = 100 * whole(&body);
    let fits = |pair: &usize| (number + *pair as u128) % 97 == 1;
    let fitting: Vec<usize> = (0..100).filter(fits).collect();
    with_check(&body, *random.pick(&fitting))
}

/// Changes of one character: what stands there, and what takes its place.
const CHANGES: [(&str, &[u8], &[u8]); 4] = [
    ("a digit for a digit", DIGITS, DIGITS),
    ("a letter for a letter", CAPITALS, CAPITALS),
    ("a letter for a digit", DIGITS, CAPITALS),
    ("a digit for a letter", CAPITALS, DIGITS),
];

/// The identifier with one character changed so; none where it has no such
/// character.
fn with_change(random: &mut Random, value: &[u8], from: &[u8], to: &[u8]) -> Option<Vec<u8>> {
    let mut places: Vec<usize> = (0..SIZE).collect();
    places.retain(|&at| from.contains(&value[at]));
    if places.is_empty() {
        return None;
    }
    let at = *random.pick(&places);
    let mut others = to.to_vec();
    others.retain(|&byte| byte != value[at]);
    Some(changed(value, at, *random.pick(&others)))
}

/// A letter comes among the check digits; the remainder stays.
const FORM_ALONE: &str = "1 and B, 2 and M or 3 and X at the check digits";

/// The identifier with two neighbours exchanged that differ, and what they are.
///
/// Where a letter worth x and a digit d are exchanged, the numbers differ by
/// 9 (x - 11 d) times a power of ten. 97 divides that only where x is 11 d. For
/// two digits or two letters it is 9 or 99 times their difference, which 97
/// never divides.
fn with_exchange(random: &mut Random, value: &[u8]) -> (&'static str, Vec<u8>) {
    let mut places: Vec<usize> = (0..SIZE - 1).collect();
    places.retain(|&at| value[at] != value[at + 1]);
    let at = *random.pick(&places);
    let other = exchanged(value, at);
    let letter_in_check = other[LEI_BODY_SIZE].is_ascii_uppercase();
    let mut neighbours = [value[at], value[at + 1]];
    neighbours.sort();
    let kind = match &neighbours {
        b"1B" | b"2M" | b"3X" if letter_in_check => FORM_ALONE,
        b"1B" => "1 and B",
        b"2M" => "2 and M",
        b"3X" => "3 and X",
        [_, b'0'..=b'9'] => "two digits",
        [b'0'..=b'9', _] => "a digit and a letter",
        _ => "two letters",
    };
    (kind, other)
}

/// What is submitted, and how many at least are refused and accepted of 100,000
/// identifiers; 0 is none at all.
const LEAST: [(&str, usize, usize); 12] = [
    ("right", 0, 100_000),
    ("a digit for a digit", 100_000, 0),
    ("a letter for a letter", 99_000, 0),
    ("a letter for a digit", 90_000, 500),
    ("a digit for a letter", 90_000, 500),
    ("two digits", 10_000, 0),
    ("two letters", 10_000, 0),
    ("a digit and a letter", 10_000, 0),
    ("1 and B", 0, 1_000),
    ("2 and M", 0, 1_000),
    ("3 and X", 0, 1_000),
    (FORM_ALONE, 50, 0),
];

#[test]
fn random_identifiers_right_and_wrong_by_one() {
    let mut random = Random::for_test(1101);
    let mut places = places();
    let mut counts: BTreeMap<&str, [usize; 2]> = BTreeMap::new();
    let each = 2 + CHANGES.len() as u64;
    for _ in 0..submissions(100_000 * each) / each {
        let right = right_identifier(&mut random);
        let mut values = vec![with_exchange(&mut random, &right)];
        for (kind, from, to) in CHANGES {
            let wrong = with_change(&mut random, &right, from, to);
            values.extend(wrong.map(|wrong| (kind, wrong)));
        }
        values.push(("right", right));
        for (kind, value) in values {
            let accepted = places[random.below(2)].accepts(&value);
            counts.entry(kind).or_default()[usize::from(accepted)] += 1;
        }
    }
    println!("refused and accepted: {counts:?}");
    assert_eq!(counts.len(), LEAST.len());
    let enough = |count, least| count >= least && (count == 0) == (least == 0);
    for (kind, refused, accepted) in LEAST {
        let [refusals, acceptances] = counts[kind];
        let right = enough(refusals, refused) && enough(acceptances, accepted);
        assert!(right, "{kind}: {refusals} refused, {acceptances} accepted");
    }
}

// Prefixes.

/// Puts each prefix of a text behind zeros, which leave its number as it is,
/// and before each pair of check digits. The pairs that are accepted tell the
/// remainder that the prefix leaves. Answers the remainders.
fn check_prefixes(place: &mut Place, text: &[u8]) -> Vec<u128> {
    let mut remainders = Vec::new();
    for length in 1..=LEI_BODY_SIZE {
        let prefix = &text[..length];
        let remainder = whole(prefix) % 97;
        let body = [&b"0".repeat(LEI_BODY_SIZE - length), prefix].concat();
        for pair in 0..100 {
            let due = (100 * remainder + pair as u128) % 97 == 1;
            let accepted = place.accepts(&with_check(&body, pair));
            assert_eq!(accepted, due, "{} {pair}", readable(prefix));
        }
        remainders.push(remainder);
    }
    remainders
}

#[test]
fn every_prefix_of_regular_texts() {
    for mut place in places() {
        for pair in ["AA", "ZZ", "00", "99", "A0", "0A", "Z9", "9Z", "AZ", "09"] {
            check_prefixes(&mut place, pair.repeat(9).as_bytes());
        }
    }
}

#[test]
fn every_prefix_of_random_texts() {
    let mut random = Random::for_test(1102);
    let mut places = places();
    let mut remainders = BTreeSet::new();
    let each = 100 * LEI_BODY_SIZE as u64;
    for _ in 0..submissions(200 * each) / each {
        let text = random.text(LEI_BODY_SIZE, CAPITALS_DIGITS);
        let place = &mut places[random.below(2)];
        remainders.extend(check_prefixes(place, &text));
    }
    // Every remainder occurs.
    assert!(remainders.into_iter().eq(0..97));
}
