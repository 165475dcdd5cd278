//! Encoding what decoding wrote gives the same bytes, whatever they are.

use crate::common::{day, decoded, encoded, message, Random};

#[track_caller]
fn comes_back(day: &[u8]) {
    let text = decoded(day);
    assert_eq!(encoded(&text), day, "{text}");
}

#[test]
fn every_short_day() {
    for first in 0..=255 {
        comes_back(&[first]);
        for second in 0..=255 {
            comes_back(&[first, second]);
            comes_back(&[2, 0, first, second]);
        }
    }
}

#[test]
fn random_bytes() {
    let mut random = Random::new(1);
    for _ in 0..3000 {
        let length = random.below(400);
        comes_back(&random.bytes(length));
    }
}

/// Small numbers make counts, codes and offsets that are nearly right.
#[test]
fn random_small_numbers() {
    let mut random = Random::new(2);
    for _ in 0..20_000 {
        let limit = 1 + random.below(24);
        let mut bytes = vec![0; random.below(60)];
        for byte in bytes.iter_mut().step_by(2) {
            *byte = u8::try_from(random.below(limit)).unwrap();
        }
        comes_back(&bytes);
    }
}

/// A day, and its text as this test writes it.
fn random_day(random: &mut Random) -> (Vec<u8>, String) {
    let mut messages = Vec::new();
    let mut text = String::new();
    for position in 1..=random.below(5) {
        if position > 1 {
            text.push('\n');
        }
        text += &format!("# message {position}\n");
        let mut elements = Vec::new();
        for _ in 0..=random.below(30) {
            let code = random.below(65536);
            let value = random_value(random);
            text += &format!("{code} {value}\n");
            elements.push((u16::try_from(code).unwrap(), value.into_bytes()));
        }
        let elements: Vec<(u16, &[u8])> = elements
            .iter()
            .map(|(code, value)| (*code, value.as_slice()))
            .collect();
        messages.push(message(&elements));
    }
    (day(&messages), text)
}

/// One or more characters that stand for themselves.
fn random_value(random: &mut Random) -> String {
    let alphabet = b"ABCXYZabcxyz0123456789-:.@#}/";
    let length = 1 + random.below(60);
    let characters = (0..length).map(|_| char::from(alphabet[random.below(alphabet.len())]));
    characters.collect()
}

#[test]
fn random_right_days() {
    let mut random = Random::new(3);
    for _ in 0..500 {
        let (day, text) = random_day(&mut random);
        assert_eq!(encoded(&text), day);
        assert_eq!(decoded(&day), text);
    }
}

#[test]
fn right_days_with_changed_bytes() {
    let mut random = Random::new(4);
    let mut tried = 0;
    for _ in 0..3000 {
        let (mut day, _) = random_day(&mut random);
        for _ in 0..=random.below(4) {
            let place = random.below(day.len().max(1));
            let byte = random.byte();
            if let Some(old) = day.get_mut(place) {
                *old = byte;
                tried += 1;
            }
        }
        comes_back(&day);
    }
    assert!(tried > 3000);
}

#[test]
fn right_days_cut_anywhere() {
    let mut random = Random::new(5);
    for _ in 0..20 {
        let (day, _) = random_day(&mut random);
        for end in 0..day.len() {
            comes_back(&day[..end]);
        }
    }
}

#[test]
fn the_longest_messages() {
    let mut random = Random::new(6);
    for start in [[0, 0], [1, 0], [28, 0], [0xff, 0xff]] {
        let mut day = vec![0xff, 0xff];
        day.extend(start);
        day.extend(random.bytes(65533));
        comes_back(&day);
        day.extend([1, 0, 7]);
        comes_back(&day);
    }
}
