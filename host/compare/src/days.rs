//! Days: the input of the program `dayrun`, messages each led by a u16 length.

use crate::cycles::{next_message, Model};
use crate::faults::{self, Case, Fault};
use crate::garbage;
use crate::layout::{self, DAY_CAPS, DAY_ROWS, LARGEST_LENGTH, LENGTH_SIZE, LONGEST_MESSAGE};
use crate::lists::ACTION_TYPE;
use crate::message::{described, Message};
use crate::order;
use crate::random::Random;
use crate::sound;
use crate::values;

/// A message led by its length.
pub fn framed(message: &[u8]) -> Vec<u8> {
    let length = u16::try_from(message.len()).expect("a length of 16 bits");
    [&length.to_le_bytes(), message].concat()
}

/// The day of these messages.
pub fn of(messages: &[Vec<u8>]) -> Vec<u8> {
    messages.iter().flat_map(|one| framed(one)).collect()
}

/// The whole messages of a day, without their lengths.
pub fn messages(day: &[u8]) -> Vec<&[u8]> {
    let mut found = Vec::new();
    let mut left = day;
    while let Some((&length, after)) = left.split_first_chunk::<LENGTH_SIZE>() {
        let Some((message, after)) = after.split_at_checked(u16::from_le_bytes(length).into())
        else {
            break;
        };
        found.push(message);
        left = after;
    }
    found
}

/// What a line of the report is about, counted from 0, for the text of a
/// failure: the heading, a message, or the last line.
pub fn subject_of(day: &[u8], line: usize) -> String {
    let messages = messages(day);
    match line.checked_sub(1).map(|at| messages.get(at)) {
        None => String::from("the heading"),
        Some(None) => format!("the line after {} messages", messages.len()),
        Some(Some(message)) if message.len() > LONGEST_MESSAGE => {
            format!("message {line}, {} bytes to be passed over", message.len())
        }
        Some(Some(message)) => format!("message {line}: {}", described(message)),
    }
}

/// Where the last whole message of a day ends.
pub fn messages_end(day: &[u8]) -> usize {
    let sizes = messages(day).into_iter().map(|one| LENGTH_SIZE + one.len());
    sizes.sum()
}

/// A sound NEWT about one of many swaps, some 300 bytes long.
pub fn new_swap(number: u64) -> Vec<u8> {
    sound::swap(number).encode()
}

/// Whole messages of so many bytes in all, at least 2: NEWTs of some 300 bytes
/// and a last message of the bytes that are left, whose layout is wrong.
pub fn of_length(length: usize) -> Vec<u8> {
    let mut day = Vec::new();
    for number in 0.. {
        let next = framed(&new_swap(number));
        let left = length - day.len();
        if left < next.len() + LENGTH_SIZE {
            day.extend(framed(&vec![b'x'; left - LENGTH_SIZE]));
            break;
        }
        day.extend(next);
    }
    day
}

/// Bytes to be passed over: what would be sound messages if they were not.
pub fn overlong(length: usize) -> Vec<u8> {
    let inside = framed(&new_swap(0));
    inside.iter().copied().cycle().take(length).collect()
}

/// Where the messages of random days come from.
pub struct Feed {
    model: Model,
    utis: Vec<Vec<u8>>,
    faults: Vec<Fault>,
}

impl Feed {
    /// A feed about so many swaps.
    pub fn about(random: &mut Random, swaps: usize) -> Feed {
        let mut faults = faults::all();
        faults.retain(|fault| order::of_the_message().contains(&fault.verdict()));
        Feed {
            model: Model::opened(layout::ledger_size(DAY_ROWS), DAY_CAPS),
            utis: values::utis(random, swaps),
            faults,
        }
    }

    /// The next message: of a life cycle, faulty, or none at all.
    pub fn next(&mut self, random: &mut Random) -> Vec<u8> {
        match random.below(28) {
            0..=5 => self.faulty(random),
            6 => self.flipped(random),
            7 => self.extended(random),
            8 => garbage::wild_message(random),
            9 => garbage::noise(random, LONGEST_MESSAGE),
            10 => {
                let length = random.below(3);
                random.bytes(length)
            }
            11 if random.once_in(4) => overlong(overlong_length(random)),
            _ => self.life(random).encode(),
        }
    }

    /// A step of a life cycle.
    fn life(&mut self, random: &mut Random) -> Message {
        let message = next_message(random, &self.model, &self.utis);
        self.model.submit(&message, layout::LINE_SIZE);
        message
    }

    /// A step of a life cycle, with rules broken.
    fn faulty(&mut self, random: &mut Random) -> Vec<u8> {
        let message = next_message(random, &self.model, &self.utis);
        let action = message.text(ACTION_TYPE);
        let mut case = Case::sound(random, &action);
        case.message = message;
        let chosen = faults::some(random, &self.faults, &action, 3);
        case.break_rules(random, &chosen);
        case.message()
    }

    /// A step of a life cycle with some bytes changed.
    fn flipped(&mut self, random: &mut Random) -> Vec<u8> {
        let mut bytes = next_message(random, &self.model, &self.utis).encode();
        garbage::flip(random, &mut bytes);
        bytes
    }

    /// A step of a life cycle made as long as a message may be, or one byte
    /// shorter or longer.
    fn extended(&mut self, random: &mut Random) -> Vec<u8> {
        let mut bytes = next_message(random, &self.model, &self.utis).encode();
        bytes.resize(
            random.between(LONGEST_MESSAGE - 1, LONGEST_MESSAGE + 1),
            b'A',
        );
        bytes
    }
}

/// A length above the longest, most often not far.
fn overlong_length(random: &mut Random) -> usize {
    match random.below(12) {
        0 => LARGEST_LENGTH,
        1 => random.between(LONGEST_MESSAGE + 1, LARGEST_LENGTH),
        2 => LONGEST_MESSAGE + 1,
        _ => random.between(LONGEST_MESSAGE + 1, 6_000),
    }
}

/// A random day of so many messages, often cut short. Now and then a length is
/// wrong, so that what follows is read as other messages than were sent.
pub fn random_day(random: &mut Random, count: usize) -> Vec<u8> {
    // Few swaps would all be ported early in a long day.
    let fewest = if count > 1_000 { 2 } else { 0 };
    let swaps = *random.pick(&[3, 40, 150, 430, 600][fewest..]);
    let mut feed = Feed::about(random, swaps);
    let damaged = random.once_in(5).then(|| random.below(count.max(1)));
    let mut day = Vec::new();
    for position in 0..count {
        let mut next = framed(&feed.next(random));
        if damaged == Some(position) {
            garbage::flip(random, &mut next[..LENGTH_SIZE]);
        }
        day.extend(next);
    }
    if random.once_in(2) {
        cut(random, &mut day);
    }
    day
}

/// Bytes that are mostly small, so that they are read as short messages.
pub fn wild_day(random: &mut Random, length: usize) -> Vec<u8> {
    let mut day = random.text(length, b"\0\0\0\0\0\0\0\0\x01\x01\x02\x03\x08\x09");
    cut(random, &mut day);
    day
}

/// Takes some bytes off the end, few most often.
fn cut(random: &mut Random, day: &mut Vec<u8>) {
    let most = match random.below(6) {
        0 => day.len(),
        1 => 3_000,
        2 => 3,
        _ => 300,
    };
    let left = day.len() - random.below(most.min(day.len()) + 1);
    day.truncate(left);
}

#[cfg(test)]
mod tests {
    use super::*;

    #[test]
    fn days_are_laid_out_as_specified() {
        assert_eq!(of(&[vec![], vec![7, 8, 9]]), [0, 0, 3, 0, 7, 8, 9]);
        assert_eq!(framed(&[1; 0x0801])[..3], [1, 8, 1]);
        let day = [0, 0, 3, 0, 7, 8, 9, 1];
        assert_eq!(messages(&day), [&[][..], &[7, 8, 9]]);
        assert_eq!(messages(&day[..6]), [&[][..]]);
    }

    #[test]
    fn a_day_has_the_length_asked_for() {
        for length in [2, 3, 200, 290, 300, 5_000, 65_536, 65_537] {
            let day = of_length(length);
            assert_eq!(day.len(), length);
            assert_eq!(messages_end(&day), length);
        }
    }
}
