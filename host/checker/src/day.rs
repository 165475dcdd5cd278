//! Section 11, the day run: the whole output for a whole day's input.

use crate::judge::{open, submit};
use crate::rules::Answer;
use crate::sizes::{self, line, DAY_ROWS, LONGEST_MESSAGE};

/// The caps of the day's ledger (11.1).
const CAPS: [u64; 5] = [250_000_000; 5];
/// The first line of the report (11.5).
const HEADING: &[u8] = b"message verdict element record\n";

/// What the day run writes for this input.
pub fn report(input: &[u8]) -> Vec<u8> {
    let mut day = Day::open();
    let mut left = input;
    loop {
        match next(left) {
            Next::Message(message, after) => {
                day.take(message);
                left = after;
            }
            Next::End => return day.close("end"),
            Next::Cut => return day.close("cut"),
        }
    }
}

/// What stands next in the input.
enum Next<'a> {
    /// A whole message, and what follows it.
    Message(&'a [u8], &'a [u8]),
    /// The input ends where a length would begin.
    End,
    /// The input ends inside a length or a message.
    Cut,
}

/// The message at the front of the input, behind its length (11.2).
fn next(input: &[u8]) -> Next<'_> {
    match input {
        [] => Next::End,
        [_] => Next::Cut,
        [low, high, bytes @ ..] => {
            let length = usize::from(u16::from_le_bytes([*low, *high]));
            match bytes.split_at_checked(length) {
                Some((message, after)) => Next::Message(message, after),
                None => Next::Cut,
            }
        }
    }
}

/// A day under way.
struct Day {
    ledger: Vec<u8>,
    tape: [u8; line::SIZE],
    judged: u64,
    published: u64,
    output: Vec<u8>,
}

impl Day {
    fn open() -> Day {
        let mut ledger = vec![0; sizes::ledger_size(DAY_ROWS)];
        let verdict = open(&mut ledger, &CAPS);
        assert_eq!(verdict, 0, "these rows and caps are admitted");
        Day {
            ledger,
            tape: [0; line::SIZE],
            judged: 0,
            published: 0,
            output: HEADING.to_vec(),
        }
    }

    /// The report's line for a message (11.6).
    fn take(&mut self, message: &[u8]) {
        let answer = self.judge(message);
        self.judged += 1;
        // An identifier is given where a line is written, and only there.
        if answer.identifier != 0 {
            self.published += 1;
        }
        let Answer {
            verdict,
            element,
            identifier,
            ..
        } = answer;
        let line = format!("{} {verdict} {element} {identifier}\n", self.judged);
        self.output.extend(line.as_bytes());
    }

    /// A message that is too long is not submitted; its verdict is 5 (11.3).
    fn judge(&mut self, message: &[u8]) -> Answer {
        if message.len() > LONGEST_MESSAGE {
            return Answer {
                verdict: 5,
                ..Answer::default()
            };
        }
        submit(&mut self.ledger, &mut self.tape, message)
    }

    /// The last line of the report (11.7).
    fn close(mut self, word: &str) -> Vec<u8> {
        let line = format!("{word} {} {}\n", self.judged, self.published);
        self.output.extend(line.as_bytes());
        self.output
    }
}
