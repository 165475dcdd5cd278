//! Sound messages: those that break none of the rules 5 to 13, nor 19.

use crate::ledgers::CAPS;
use compare::codes::{CURRENCIES, LOCATIONS};
use compare::layout::TERMS_SIZE;
use compare::lists::{codes, TRUTHS};
use compare::matrix::{events_of, is_full};
use compare::message::Message;
use compare::random::Random;
use compare::showing::showing;
use compare::terms::applies;
use compare::values::{lei, CAPITALS_DIGITS};

/// The day on which the messages are sent; swaps were executed this month.
const MONTH: &str = "2026-03";
const TODAY: usize = 30;
/// Trading ends before this hour, reporting begins with it.
const EVENING: usize = 16;

const CLASSES: [&str; 8] = ["CR", "IR", "IR", "FX", "EQ", "CO", "CO", "CO"];

/// A sound message of an action about a swap that was executed at this time.
pub fn sound(random: &mut Random, action: &str, uti: &str, execution: &str) -> Message {
    let mut message = Message::default();
    message.set(1, uti).set(2, action);
    if let Some(event) = random.pick(&events_of(action)) {
        message.set(3, event);
    }
    message.set(4, time_this_evening(random));
    message.set(5, time_this_evening(random));
    if is_full(action) {
        message.set(6, execution);
        set_terms(random, &mut message);
    }
    message
}

/// A sound NEWT.
pub fn sound_new(random: &mut Random, uti: &str) -> Message {
    let execution = execution_time(random);
    sound(random, "NEWT", uti, &execution)
}

/// A sound NEWT of a package that is quoted by a spread.
pub fn sound_new_by_spread(random: &mut Random, uti: &str) -> Message {
    let mut message = sound_new(random, uti);
    message.remove(17).remove(18).remove(19);
    name_package(random, &mut message);
    let notation = *random.pick(&["1", "3", "4"]);
    message.set(26, spread(random, notation)).set(27, notation);
    if notation == "1" {
        message.set(28, random.pick(&CURRENCIES));
    }
    message
}

/// A sound MODI that shows these masked terms.
pub fn sound_showing(random: &mut Random, uti: &str, terms: &[u8; TERMS_SIZE]) -> Message {
    let mut message = showing(random, "MODI", uti.as_bytes(), terms, &CAPS);
    for code in codes() {
        if !applies(&message, code) {
            message.remove(code);
        }
    }
    message
}

/// An execution time; no message is sent before it.
pub fn execution_time(random: &mut Random) -> String {
    let day = random.between(1, TODAY);
    let hour = random.between(8, EVENING - 1);
    time(random, day, hour)
}

fn time_this_evening(random: &mut Random) -> String {
    let hour = random.between(EVENING, 22);
    time(random, TODAY, hour)
}

fn time(random: &mut Random, day: usize, hour: usize) -> String {
    let (minute, second) = (random.below(60), random.below(60));
    format!("{MONTH}-{day:02}T{hour:02}:{minute:02}:{second:02}Z")
}

fn set_terms(random: &mut Random, message: &mut Message) {
    set_dates(random, message);
    message.set(10, random.pick(&["Y", "N", "I"]));
    if message.value(10) == b"N" {
        message.set(11, random.pick(&TRUTHS));
    }
    message.set(12, random.pick(&TRUTHS));
    message.set(13, random.pick(&TRUTHS));
    message.set(14, random.pick(&["POST", "PREA", "UNAL"]));
    message.set(15, "False");
    if random.once_in(3) {
        let notation = *random.pick(&["1", "3"]);
        set_package(random, message, notation);
    }
    message.set(20, amount(random));
    message.set(21, random.pick(&CURRENCIES));
    if random.once_in(2) {
        message.set(22, random.pick(&LOCATIONS));
    }
    message.set(23, lei(random));
    message.set(24, lei(random));
    message.set(25, random.pick(&CLASSES));
}

fn set_dates(random: &mut Random, message: &mut Message) {
    let (year, month) = (random.between(2026, 2036), random.between(5, 12));
    let day = random.between(1, 28);
    message.set(7, format!("2026-04-{:02}", random.between(1, 30)));
    message.set(8, format!("{year}-{month:02}-{day:02}"));
    message.set(9, format!("{year}-{month:02}-{:02}", day + 2));
}

/// Makes a full message one of a package that is quoted by a price.
pub fn set_package(random: &mut Random, message: &mut Message, notation: &str) {
    name_package(random, message);
    message.set(17, price(random));
    message.set(18, notation);
    if notation == "1" {
        message.set(19, random.pick(&CURRENCIES));
    }
}

fn name_package(random: &mut Random, message: &mut Message) {
    message.set(15, random.pick(&["True", "true"]));
    let length = random.between(8, 24);
    message.set(16, random.text(length, CAPITALS_DIGITS));
}

/// A price of at most 7 digits, so that both notations take it.
fn price(random: &mut Random) -> String {
    let minus = if random.once_in(4) { "-" } else { "" };
    let whole = random.below(1_000);
    format!("{minus}{whole}.{:04}", random.below(10_000))
}

/// A spread that its notation takes. Basis points have no decimals.
fn spread(random: &mut Random, notation: &str) -> String {
    let number = price(random);
    match (notation, number.split_once('.')) {
        ("4", Some((whole, _))) => whole.to_string(),
        _ => number,
    }
}

/// An amount of 3 to 12 digits before the point; some are above their cap.
fn amount(random: &mut Random) -> String {
    let lowest = 10_usize.pow(random.between(2, 11) as u32);
    let whole = random.between(lowest, 10 * lowest - 1);
    match random.below(3) {
        0 => format!("{whole}.{:02}", random.below(100)),
        1 => format!("{whole}.{:05}", random.below(100_000)),
        _ => format!("{whole}"),
    }
}
