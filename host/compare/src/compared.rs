//! Lends the same bytes to the judges and compares what they make of them.

use crate::guarded::{Guarded, GuardedTotals};
use crate::judge::{Judge, BOTH};
use crate::layout::{self, Caps, HEADER_SIZE, LINE_SIZE, ROWS_IN_HEADER, TOTALS};
use crate::message::described;
use crate::order::NAMING_AN_ELEMENT;
use crate::tally::Tally;
use sdr::{Answer, Totals, ACCEPTED};
use std::fmt;

/// What one judge is lent.
struct Side {
    judge: &'static dyn Judge,
    ledger: Guarded,
    tape: Guarded,
    input: Guarded,
    totals: GuardedTotals,
}

/// A ledger and a tape buffer, one copy for each judge.
pub struct Compared {
    sides: Vec<Side>,
    ledger_before: Vec<u8>,
    tape_before: Vec<u8>,
    /// Counts of what was answered.
    pub tally: Tally,
}

/// The judges differ, or one of them broke a rule that needs no other judge.
#[derive(Debug)]
pub struct Mismatch(String);

impl Mismatch {
    /// An answer on which both sides agree is not the one that is due.
    pub fn new(input: &[u8], answer: impl fmt::Debug, fault: &str) -> Self {
        Mismatch(format!("{fault}\n{}both {answer:?}\n", described(input)))
    }
}

impl fmt::Display for Mismatch {
    fn fmt(&self, out: &mut fmt::Formatter) -> fmt::Result {
        out.write_str(&self.0)
    }
}

/// The result of a call on both sides.
pub type Agreed<T = Answer> = Result<T, Mismatch>;

impl Default for Compared {
    fn default() -> Self {
        Compared::new()
    }
}

impl Compared {
    /// Empty buffers for the core and the checker.
    pub fn new() -> Self {
        Compared::between(&BOTH)
    }

    /// Empty buffers for these judges.
    pub fn between(judges: &[&'static dyn Judge]) -> Self {
        let patterns = [0xa5, 0x3c, 0x96, 0x0f];
        let side = |(judge, pattern): (&&'static dyn Judge, u8)| Side {
            judge: *judge,
            ledger: Guarded::new(pattern),
            tape: Guarded::new(pattern),
            input: Guarded::new(pattern),
            totals: GuardedTotals::new(pattern),
        };
        Compared {
            sides: judges.iter().zip(patterns).map(side).collect(),
            ledger_before: Vec::new(),
            tape_before: Vec::new(),
            tally: Tally::default(),
        }
    }

    /// A ledger just opened, with so many rows, and a tape buffer of a line,
    /// for the core and the checker. Neither was empty before.
    pub fn opened(rows: usize, caps: &Caps) -> Self {
        let mut compared = Compared::new();
        compared.set_ledger(&vec![0xee; layout::ledger_size(rows)]);
        compared.set_tape(&[b'x'; LINE_SIZE]);
        assert_eq!(compared.open(caps).verdict, ACCEPTED);
        compared
    }

    /// Gives every side this ledger.
    pub fn set_ledger(&mut self, ledger: &[u8]) {
        self.sides
            .iter_mut()
            .for_each(|side| side.ledger.set(ledger));
    }

    /// Gives every side this tape buffer.
    pub fn set_tape(&mut self, tape: &[u8]) {
        self.sides.iter_mut().for_each(|side| side.tape.set(tape));
    }

    /// The ledger as the last call left it.
    pub fn ledger(&self) -> &[u8] {
        self.sides[0].ledger.bytes()
    }

    /// The tape buffer as the last call left it.
    pub fn tape(&self) -> &[u8] {
        self.sides[0].tape.bytes()
    }

    /// Opens the ledger; panics on a mismatch.
    pub fn open(&mut self, caps: &Caps) -> Answer {
        agreed(self.try_open(caps))
    }

    /// Submits a message; panics on a mismatch.
    pub fn submit(&mut self, message: &[u8]) -> Answer {
        agreed(self.try_submit(message))
    }

    /// Asks a status; panics on a mismatch.
    pub fn status(&mut self, uti: &[u8]) -> Answer {
        agreed(self.try_status(uti))
    }

    /// Asks for the totals; panics on a mismatch.
    pub fn totals(&mut self) -> Totals {
        agreed(self.try_totals())
    }

    /// Opens the ledger and compares.
    pub fn try_open(&mut self, caps: &Caps) -> Agreed {
        let call = |side: &mut Side| side.judge.open(side.ledger.bytes_mut(), caps);
        let answer = self.call(&[], call)?;
        self.tally.opening(answer);
        Ok(answer)
    }

    /// Submits a message and compares.
    pub fn try_submit(&mut self, message: &[u8]) -> Agreed {
        let call = |side: &mut Side| {
            let (ledger, tape) = (side.ledger.bytes_mut(), side.tape.bytes_mut());
            side.judge.submit(ledger, tape, side.input.bytes())
        };
        let answer = self.call(message, call)?;
        self.tally.submission(answer);
        if answer.identifier == 0 && self.tape_before != self.tape() {
            return Err(self.mismatch("written without an identifier", message, &[answer]));
        }
        Ok(answer)
    }

    /// Asks a status and compares.
    pub fn try_status(&mut self, uti: &[u8]) -> Agreed {
        let call = |side: &mut Side| side.judge.status(side.ledger.bytes(), side.input.bytes());
        let answer = self.call(uti, call)?;
        self.tally.question();
        if !self.is_unchanged() {
            return Err(self.mismatch("a status question wrote", uti, &[answer]));
        }
        Ok(answer)
    }

    /// Asks for the totals and compares.
    pub fn try_totals(&mut self) -> Agreed<Totals> {
        self.sides.iter_mut().for_each(|side| side.totals.reset());
        let call = |side: &mut Side| {
            side.judge
                .totals(side.ledger.bytes(), side.totals.totals_mut())
        };
        let answer = self.call(&[], call)?;
        self.tally.question();
        if let Some(fault) = self.wrong_totals(answer) {
            return Err(self.mismatch(&fault, &[], &[answer]));
        }
        Ok(Totals {
            verdict: answer.verdict,
            totals: self.sides[0].totals.totals(),
        })
    }

    /// Makes the same call on every side and compares all that it left.
    fn call(&mut self, input: &[u8], call: impl Fn(&mut Side) -> Answer) -> Agreed {
        self.keep();
        let mut answers = Vec::new();
        for side in &mut self.sides {
            side.input.set(input);
            answers.push(call(side));
        }
        let fault = self
            .wrong_write(input)
            .or_else(|| self.difference(&answers))
            .or_else(|| self.wrong_refusal(answers[0]).map(str::to_string))
            .or_else(|| self.wrong_sum(answers[0]));
        match fault {
            Some(fault) => Err(self.mismatch(&fault, input, &answers)),
            None => Ok(answers[0]),
        }
    }

    /// Keeps what the buffers hold before a call.
    fn keep(&mut self) {
        let side = &self.sides[0];
        self.ledger_before.clear();
        self.ledger_before.extend(side.ledger.bytes());
        self.tape_before.clear();
        self.tape_before.extend(side.tape.bytes());
    }

    fn is_unchanged(&self) -> bool {
        self.ledger_before == self.ledger() && self.tape_before == self.tape()
    }

    /// A side wrote beside its buffers, into the message or behind the line.
    fn wrong_write(&self, input: &[u8]) -> Option<String> {
        let mut faults = self.sides.iter().filter_map(|side| {
            let fault = side.wrong_write(input, &self.tape_before)?;
            Some(format!("{}: {fault}", side.judge.name()))
        });
        faults.next()
    }

    /// Two sides answered differently or left different bytes.
    fn difference(&self, answers: &[Answer]) -> Option<String> {
        let first = &self.sides[0];
        for (side, answer) in self.sides.iter().zip(answers).skip(1) {
            if *answer != answers[0] {
                return Some("the answers differ".to_string());
            }
            if let Some((at, a, b)) = difference(first.ledger.bytes(), side.ledger.bytes()) {
                let place = layout::place(at);
                return Some(format!(
                    "the ledgers differ: byte {at} ({place}) is {a} and {b}"
                ));
            }
            if let Some((at, a, b)) = difference(first.tape.bytes(), side.tape.bytes()) {
                return Some(format!("the tape buffers differ: byte {at} is {a} and {b}"));
            }
        }
        None
    }

    /// A totals question wrote, or two sides answered different totals, or a
    /// refusal some.
    fn wrong_totals(&self, answer: Answer) -> Option<String> {
        let totals: Vec<[u32; TOTALS]> =
            self.sides.iter().map(|side| side.totals.totals()).collect();
        if !self.is_unchanged() {
            return Some("a totals question wrote".to_string());
        }
        if totals.iter().any(|one| *one != totals[0]) {
            return Some(format!("the totals differ: {totals:?}"));
        }
        let refused = answer.verdict != ACCEPTED && totals[0] != [0; TOTALS];
        refused.then(|| format!("a refusal answers totals: {:?}", totals[0]))
    }

    /// An accepted call leaves totals that do not add up to the rows in use.
    fn wrong_sum(&self, answer: Answer) -> Option<String> {
        if answer.verdict != ACCEPTED || self.ledger().len() < HEADER_SIZE {
            return None;
        }
        let rows = layout::u32_at(self.ledger(), ROWS_IN_HEADER);
        let totals = layout::totals_in(self.ledger());
        let sum: u64 = totals.into_iter().map(u64::from).sum();
        (sum != u64::from(rows)).then(|| format!("{rows} rows are left with totals {totals:?}"))
    }

    /// A refusal changes nothing, answers no identifier and no status; an
    /// element is named only under the rules that name one.
    fn wrong_refusal(&self, answer: Answer) -> Option<&'static str> {
        let names = NAMING_AN_ELEMENT.contains(&answer.verdict);
        if (answer.element != 0) != names {
            return Some("an element is named wrongly");
        }
        if answer.verdict == ACCEPTED {
            return None;
        }
        if answer.identifier != 0 || answer.status != 0 {
            return Some("a refusal answers a status or an identifier");
        }
        (!self.is_unchanged()).then_some("a refusal wrote")
    }

    /// Tells a fault with all that was lent and answered.
    fn mismatch(&self, fault: &str, input: &[u8], answers: &[Answer]) -> Mismatch {
        let mut text = format!("{fault}\n{}", described(input));
        for (side, answer) in self.sides.iter().zip(answers) {
            text += &format!("{:8} {answer:?}\n", side.judge.name());
        }
        text += &format!(
            "ledger before: {}\n",
            layout::described(&self.ledger_before)
        );
        text += &format!("tape buffer of {} bytes\n", self.tape_before.len());
        Mismatch(text)
    }
}

impl Side {
    /// What the side wrote where it must not.
    fn wrong_write(&self, input: &[u8], tape_before: &[u8]) -> Option<&'static str> {
        let lent = [&self.ledger, &self.tape, &self.input];
        if !lent.iter().all(|guarded| guarded.is_whole()) || !self.totals.is_whole() {
            return Some("guard bytes changed");
        }
        if self.input.bytes() != input {
            return Some("the message changed");
        }
        let behind = tape_before.iter().zip(self.tape.bytes()).skip(LINE_SIZE);
        let stays = behind.into_iter().all(|(before, after)| before == after);
        (!stays).then_some("bytes behind the line changed")
    }
}

fn agreed<T>(result: Agreed<T>) -> T {
    result.unwrap_or_else(|mismatch| panic!("{mismatch}"))
}

/// The first place where two buffers differ, with both bytes.
fn difference(first: &[u8], second: &[u8]) -> Option<(usize, u8, u8)> {
    if first == second {
        return None;
    }
    let pairs = first.iter().zip(second).enumerate();
    let mut differing = pairs.filter(|(_, (a, b))| a != b);
    differing.next().map(|(at, (a, b))| (at, *a, *b))
}

#[cfg(test)]
mod tests {
    use super::{Answer, Caps, Compared, Judge};
    use crate::layout::{ledger_size, LINE_SIZE, TOTALS, TOTALS_IN_HEADER, U32_SIZE};

    /// A byte of the second row.
    const IN_ROW_1: usize = ledger_size(1) + 75;
    /// The longest tape buffer here: a line and some bytes behind it.
    const TAPE: usize = LINE_SIZE + 4;

    /// A judge that does to ledger and tape buffer what it is told.
    struct Told(fn(&mut [u8], &mut [u8]) -> Answer);

    impl Judge for Told {
        fn name(&self) -> &'static str {
            "told"
        }

        fn open(&self, ledger: &mut [u8], _: &Caps) -> Answer {
            self.0(ledger, &mut [0; TAPE])
        }

        fn submit(&self, ledger: &mut [u8], tape: &mut [u8], _: &[u8]) -> Answer {
            self.0(ledger, tape)
        }

        fn status(&self, ledger: &[u8], _: &[u8]) -> Answer {
            self.0(&mut ledger.to_vec(), &mut [0; TAPE])
        }

        fn totals(&self, ledger: &[u8], totals: &mut [u32; TOTALS]) -> Answer {
            *totals = [0; TOTALS];
            self.0(&mut ledger.to_vec(), &mut [0; TAPE])
        }
    }

    /// A judge that answers totals as it is told, and nothing else.
    struct Totalling(fn(&mut [u32; TOTALS]) -> Answer);

    impl Judge for Totalling {
        fn name(&self) -> &'static str {
            "totalling"
        }

        fn open(&self, _: &mut [u8], _: &Caps) -> Answer {
            Answer::default()
        }

        fn submit(&self, _: &mut [u8], _: &mut [u8], _: &[u8]) -> Answer {
            Answer::default()
        }

        fn status(&self, _: &[u8], _: &[u8]) -> Answer {
            Answer::default()
        }

        fn totals(&self, _: &[u8], totals: &mut [u32; TOTALS]) -> Answer {
            self.0(totals)
        }
    }

    fn answer(verdict: u8, element: u8, status: u8, identifier: u64) -> Answer {
        Answer {
            verdict,
            element,
            status,
            identifier,
        }
    }

    static SILENT: Told = Told(|_, _| Answer::default());

    /// Other judges, and how their difference from the silent one is told.
    static OTHERS: [(Told, fn() -> String); 7] = [
        (Told(|_, _| answer(15, 0, 0, 0)), answers_differ),
        (Told(|_, _| answer(0, 3, 0, 0)), answers_differ),
        (Told(|_, _| answer(0, 0, 1, 0)), answers_differ),
        (Told(|_, _| answer(0, 0, 0, 1)), answers_differ),
        (
            Told(|ledger, _| {
                ledger[IN_ROW_1] = 1;
                Answer::default()
            }),
            || format!("the ledgers differ: byte {IN_ROW_1} (row 1 byte 75) is 0 and 1"),
        ),
        (
            Told(|_, tape| {
                tape[LINE_SIZE - 1] = 1;
                Answer::default()
            }),
            || {
                let last = LINE_SIZE - 1;
                format!("the tape buffers differ: byte {last} is 0 and 1")
            },
        ),
        (
            Told(|_, tape| {
                tape[LINE_SIZE] = 1;
                Answer::default()
            }),
            || "told: bytes behind the line changed".to_string(),
        ),
    ];

    fn answers_differ() -> String {
        "the answers differ".to_string()
    }

    static BOTH_WRONG: [(Told, &str); 8] = [
        (
            Told(|ledger, _| {
                ledger[0] += 1;
                answer(0, 0, 0, 0)
            }),
            "1 rows are left with totals [0, 0, 0, 0]",
        ),
        (
            // Four times 2^30, which wraps to 0 at 32 bits.
            Told(|ledger, _| {
                let totals = ledger[TOTALS_IN_HEADER].chunks_mut(U32_SIZE);
                totals.for_each(|total| total[3] = 0x40);
                answer(0, 0, 0, 0)
            }),
            "0 rows are left with totals [1073741824, 1073741824, 1073741824, 1073741824]",
        ),
        (
            Told(|ledger, _| {
                ledger[0] += 1;
                answer(15, 0, 0, 0)
            }),
            "a refusal wrote",
        ),
        (
            Told(|_, tape| {
                tape[0] += 1;
                answer(15, 0, 0, 0)
            }),
            "a refusal wrote",
        ),
        (
            Told(|_, tape| {
                tape[0] += 1;
                answer(0, 0, 0, 0)
            }),
            "written without an identifier",
        ),
        (
            Told(|_, _| answer(17, 0, 0, 1)),
            "a refusal answers a status or an identifier",
        ),
        (
            Told(|_, _| answer(9, 0, 0, 0)),
            "an element is named wrongly",
        ),
        (
            Told(|_, _| answer(15, 1, 0, 0)),
            "an element is named wrongly",
        ),
    ];

    fn fault_between(first: &'static Told, second: &'static Told) -> String {
        let mut compared = Compared::between(&[first, second]);
        compared.set_ledger(&[0; ledger_size(2)]);
        compared.set_tape(&[0; TAPE]);
        let result = compared.try_submit(b"message");
        result.expect_err("the judges are wrong").to_string()
    }

    #[test]
    fn each_difference_is_told() {
        for (other, text) in &OTHERS {
            let fault = fault_between(&SILENT, other);
            assert!(fault.starts_with(&text()), "{fault}");
        }
    }

    /// Judges beside one that answers totals of 1, 2, 3 and 4, and how the
    /// difference is told. The second leaves the array as it was.
    static OTHER_TOTALS: [(Totalling, &str); 4] = [
        (Totalling(|_| answer(3, 0, 0, 0)), "the answers differ"),
        (
            Totalling(|_| answer(0, 0, 0, 0)),
            "the totals differ: [[1, 2, 3, 4], [1010580540, 1010580540, 1010580540, 1010580540]]",
        ),
        (
            Totalling(|totals| {
                *totals = [1, 2, 3, 5];
                answer(0, 0, 0, 0)
            }),
            "the totals differ: [[1, 2, 3, 4], [1, 2, 3, 5]]",
        ),
        (
            Totalling(|totals| {
                *totals = [0, 2, 3, 4];
                answer(0, 0, 0, 0)
            }),
            "the totals differ: [[1, 2, 3, 4], [0, 2, 3, 4]]",
        ),
    ];

    static COUNTING: Totalling = Totalling(|totals| {
        *totals = [1, 2, 3, 4];
        Answer::default()
    });

    static REFUSING: Totalling = Totalling(|totals| {
        *totals = [0, 0, 0, 4];
        answer(3, 0, 0, 0)
    });

    fn totals_between(first: &'static Totalling, second: &'static Totalling) -> Compared {
        let mut compared = Compared::between(&[first, second]);
        compared.set_ledger(&[0; ledger_size(2)]);
        compared
    }

    #[test]
    fn each_difference_of_totals_is_told() {
        for (other, text) in &OTHER_TOTALS {
            let result = totals_between(&COUNTING, other).try_totals();
            let fault = result.expect_err("the totals differ").to_string();
            assert!(fault.starts_with(text), "{fault}");
        }
        let result = totals_between(&REFUSING, &REFUSING).try_totals();
        let fault = result.expect_err("both are wrong").to_string();
        assert!(fault.starts_with("a refusal answers totals"), "{fault}");
        let answered = totals_between(&COUNTING, &COUNTING).totals();
        assert_eq!((answered.verdict, answered.totals), (0, [1, 2, 3, 4]));
    }

    #[test]
    fn what_both_do_wrong_is_told() {
        for (wrong, text) in &BOTH_WRONG {
            let fault = fault_between(wrong, wrong);
            assert!(fault.starts_with(text), "{fault}");
        }
    }
}
