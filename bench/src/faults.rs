//! Messages with one fault, which the rules 5 to 13 refuse.

use crate::messages::set_package;
use compare::layout::{COUNT_SIZE, ENTRY_SIZE};
use compare::lists::LAST_CODE;
use compare::message::Message;
use compare::random::Random;

/// Where the first entry's offset and the second entry's code stand.
const FIRST_OFFSET: usize = COUNT_SIZE + 2;
const SECOND_CODE: usize = COUNT_SIZE + ENTRY_SIZE;

/// Verdict 5: one of four wrong layouts, by number. The first two show in the
/// first bytes, the others only when the entries have been read.
pub fn layout_wrong(number: usize, message: &Message) -> Vec<u8> {
    let mut bytes = message.encode();
    match number % 4 {
        0 => bytes[0] = LAST_CODE + 1,
        1 => bytes[FIRST_OFFSET] += 1,
        2 => bytes[SECOND_CODE] = 1,
        _ => {
            let last = message
                .codes()
                .last()
                .map_or(0, |&code| message.value(code).len());
            bytes.truncate(bytes.len() - last);
        }
    }
    bytes
}

/// Verdict 6: no action or none of the seven, by number.
pub fn action_wrong(number: usize, message: &Message) -> Message {
    match ["", "newt", "NEW", "NEWTS", "OPEN", "NEWX"][number % 6] {
        "" => message.without(2),
        action => message.with(2, action),
    }
}

/// Verdict 13: one of the three disorders, by number.
pub fn dates_disordered(number: usize, message: &Message) -> Message {
    match number % 3 {
        0 => message.with(8, "2026-03-31"),
        1 => message.with(9, "2026-04-30"),
        _ => message.with(5, "2026-02-28T20:00:00Z"),
    }
}

/// A sound full message with a fault of any of these rules, and the verdict.
pub fn any(random: &mut Random, full: &Message) -> (Vec<u8>, u8) {
    let number = random.below(12);
    let mut changed = full.clone();
    let verdict = match random.below(8) {
        0 => return (layout_wrong(number, full), 5),
        1 => {
            changed = action_wrong(number, full);
            6
        }
        2 => {
            changed.remove(*random.pick(&[4, 9, 20, 24]));
            7
        }
        3 => {
            changed = form_broken(number, full);
            9
        }
        4 => {
            changed.set(3, "PTNX");
            10
        }
        5 => {
            set_package(random, &mut changed, "1");
            changed.remove(*random.pick(&[16, 17, 18]));
            11
        }
        6 => {
            set_package(random, &mut changed, "3");
            changed.set(17, "12.34567890123");
            12
        }
        _ => {
            changed = dates_disordered(number, full);
            13
        }
    };
    (changed.encode(), verdict)
}

/// Verdict 9: a value that is wrong the way such values are.
fn form_broken(number: usize, message: &Message) -> Message {
    match number % 4 {
        0 => message.with(20, "1,250,000"),
        1 => message.with(7, "2026-02-30"),
        2 => message.with(24, "549300NOTANLEINUMB99"),
        _ => message.with(21, "CNH"),
    }
}

/// Verdict 8: a sound short message with an element that it does not take.
pub fn element_not_taken(short: &Message) -> Message {
    short.with(20, "1250000")
}
