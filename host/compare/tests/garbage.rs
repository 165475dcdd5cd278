//! Bytes that no host would send: noise in all three buffers, wild codes and
//! offsets, messages cut short or made longer.

use compare::compared::Compared;
use compare::garbage::{noise, wild_message};
use compare::layout::{ledger_size, Header, DAY_CAPS, HEADER_SIZE, IDENTIFIER_LIMIT, LINE_SIZE};
use compare::layout::{LONGEST_MESSAGE, ROW_SIZE};
use compare::lists::{codes_with_a_form, ACTIONS};
use compare::random::Random;
use compare::sound::{self, plain_new, plain_package, plain_spread};
use compare::{submissions, values};

#[test]
fn noise_in_all_buffers() {
    let mut random = Random::for_test(501);
    let mut compared = Compared::new();
    let mut counted = 0;
    for _ in 0..submissions(25_000) {
        compared.set_ledger(&noise_ledger(&mut random));
        compared.set_tape(&noise(&mut random, 300));
        compared.submit(&noise(&mut random, LONGEST_MESSAGE + 50));
        compared.status(&noise(&mut random, 60));
        counted += u64::from(compared.totals().verdict == 0);
    }
    println!("noise: {}", compared.tally);
    for verdict in [3, 4, 5] {
        assert!(compared.tally.verdict(verdict) > 0, "verdict {verdict}");
    }
    // Every second header is sound.
    let submissions = compared.tally.submissions;
    assert!((submissions / 3..submissions * 2 / 3).contains(&counted));
}

/// Noise, or noise behind a sound header.
fn noise_ledger(random: &mut Random) -> Vec<u8> {
    if random.once_in(2) {
        return noise(random, 1_000);
    }
    let length = ledger_size(random.between(1, 4)) + random.below(ROW_SIZE);
    let mut ledger = random.bytes(length);
    let mut header = Header::opened(length, values::caps(random));
    header.rows = random.below(header.capacity as usize + 1) as u32;
    header.totals = values::totals(random, header.rows);
    header.next = 1 + random.bits() % IDENTIFIER_LIMIT;
    ledger[..HEADER_SIZE].copy_from_slice(&header.encode());
    ledger
}

#[test]
fn wild_codes_and_offsets() {
    let mut random = Random::for_test(502);
    let mut compared = opened(&mut random);
    for _ in 0..submissions(25_000) {
        compared.submit(&wild_message(&mut random));
    }
    println!("wild messages: {}", compared.tally);
    for verdict in [5, 6] {
        assert!(compared.tally.verdict(verdict) > 0, "verdict {verdict}");
    }
}

#[test]
fn wild_values_under_a_sound_action() {
    let mut random = Random::for_test(503);
    let mut compared = opened(&mut random);
    let codes: Vec<u8> = codes_with_a_form().collect();
    for _ in 0..submissions(15_000) {
        let action = *random.pick(&ACTIONS);
        let uti = values::uti(&mut random);
        let mut message = sound::message(&mut random, action, &uti);
        for _ in 0..random.between(1, 3) {
            let code = *random.pick(&codes);
            if message.has(code) {
                let length = random.between(1, 30);
                let value = random.text(length, b"0123456789.-:TZAYaz ");
                message.set(code, value);
            }
        }
        compared.submit(&message.encode());
    }
    println!("wild values: {}", compared.tally);
    assert!(compared.tally.verdict(9) > 0);
}

/// A tape buffer with some bytes behind the line.
const TAPE: usize = LINE_SIZE + 24;

fn opened(random: &mut Random) -> Compared {
    let mut compared = Compared::new();
    compared.set_ledger(&random.bytes(ledger_size(3)));
    compared.set_tape(&random.bytes(TAPE));
    assert_eq!(compared.open(&DAY_CAPS).verdict, 0);
    compared
}

#[test]
fn every_prefix_of_a_sound_message() {
    let mut random = Random::for_test(504);
    let price = plain_package("1", "12.50").with(11, "True").with(22, "US");
    let spread = plain_spread("1", "12.50").with(11, "True").with(22, "US");
    // The last value is an asset class of two characters or a currency of
    // three. Cut short, it is malformed; without it, the layout is wrong.
    for (message, last, size) in [(price, 25, 2), (spread, 28, 3)] {
        let bytes = message.encode();
        for length in 0..=bytes.len() {
            let mut compared = opened(&mut random);
            let answer = compared.submit(&bytes[..length]);
            let due = match bytes.len() - length {
                0 => (0, 0),
                cut if cut < size => (9, last),
                _ => (5, 0),
            };
            assert_eq!((answer.verdict, answer.element), due, "{length}");
        }
    }
}

#[test]
fn extended_messages() {
    let mut random = Random::for_test(505);
    let bytes = plain_new().encode();
    for more in 1..=LONGEST_MESSAGE + 50 {
        let mut compared = opened(&mut random);
        let mut longer = bytes.clone();
        longer.extend(random.bytes(more));
        let answer = compared.submit(&longer);
        let due = if longer.len() > LONGEST_MESSAGE {
            (5, 0)
        } else {
            (9, 25)
        };
        assert_eq!((answer.verdict, answer.element), due, "{more}");
    }
}

#[test]
fn prefixes_of_random_messages() {
    let mut random = Random::for_test(506);
    let mut compared = opened(&mut random);
    while compared.tally.submissions < submissions(15_000) {
        let action = *random.pick(&ACTIONS);
        let uti = values::uti(&mut random);
        let bytes = sound::message(&mut random, action, &uti).encode();
        for length in 0..bytes.len() {
            if random.once_in(4) {
                compared.submit(&bytes[..length]);
            }
        }
    }
    println!("prefixes: {}", compared.tally);
    assert!(compared.tally.verdict(5) > 0);
    assert_eq!(compared.tape().len(), TAPE);
    assert!(compared.tape().len() > LINE_SIZE);
}
