//! A mix of everything, one submission after the other.

use crate::compared::{Compared, Mismatch};
use crate::cycles::{next_message, Model};
use crate::faults::{self, Case, Fault};
use crate::garbage;
use crate::judge::Judge;
use crate::layout::{self, DAY_CAPS, DAY_ROWS, ROW_SIZE};
use crate::lists::ACTIONS;
use crate::random::Random;
use crate::tally::Tally;
use crate::values;
use sdr::ACCEPTED;

/// After so many submissions another ledger is opened.
const LIFE: u64 = 400;

/// A run of random submissions of every kind.
pub struct Mix {
    random: Random,
    /// The ledger that goes through life cycles.
    long: Compared,
    /// Ledgers of one submission each.
    single: Compared,
    model: Model,
    utis: Vec<Vec<u8>>,
    faults: Vec<Fault>,
    steps: u64,
}

impl Mix {
    /// A run of these judges that a seed tells.
    pub fn between(judges: &[&'static dyn Judge], seed: u64) -> Self {
        Mix {
            random: Random::new(seed),
            long: Compared::between(judges),
            single: Compared::between(judges),
            model: Model::opened(0, DAY_CAPS),
            utis: Vec::new(),
            faults: faults::all(),
            steps: 0,
        }
    }

    /// What was answered so far.
    pub fn tally(&self) -> Tally {
        let mut tally = self.long.tally.clone();
        tally.add(&self.single.tally);
        tally
    }

    /// Makes one submission and asks for one status or for the totals.
    pub fn step(&mut self) -> Result<(), Mismatch> {
        if self.steps.is_multiple_of(LIFE) {
            self.open()?;
        }
        self.steps += 1;
        match self.random.below(8) {
            0 => self.faulty(),
            1 => self.flipped_message(),
            2 => self.flipped_ledger(),
            3 => self.wild(),
            _ => self.life(),
        }
    }

    /// Opens another ledger for life cycles.
    fn open(&mut self) -> Result<(), Mismatch> {
        let rows = *self.random.pick(&[1, 2, 3, 7, 20, 60, DAY_ROWS]);
        let length = layout::ledger_size(rows) + self.random.below(ROW_SIZE);
        let caps = values::caps(&mut self.random);
        self.long.set_ledger(&self.random.bytes(length));
        self.long.try_open(&caps)?;
        self.model = Model::opened(length, caps);
        self.utis = values::utis(&mut self.random, (rows + 2).min(80));
        Ok(())
    }

    /// A step of a life cycle, held to the model.
    fn life(&mut self) -> Result<(), Mismatch> {
        let message = next_message(&mut self.random, &self.model, &self.utis);
        let length = values::any_tape_length(&mut self.random);
        let tape = self.random.bytes(length);
        self.long.set_tape(&tape);
        let answer = self.long.try_submit(&message.encode())?;
        let due = self.model.submit(&message, length);
        let same = (answer.verdict, answer.identifier) == (due.verdict, due.identifier);
        let line = match &due.line {
            Some(line) => self.long.tape().starts_with(line),
            None => self.long.tape() == tape,
        };
        if !same || !line {
            return Err(Mismatch::new(
                &message.encode(),
                answer,
                "the model says otherwise",
            ));
        }
        self.ask_long()
    }

    /// A question about the ledger of the life cycle, held to the model.
    fn ask_long(&mut self) -> Result<(), Mismatch> {
        if self.random.once_in(4) {
            let answer = self.long.try_totals()?;
            if (answer.verdict, answer.totals) != (ACCEPTED, self.model.header.totals) {
                return Err(Mismatch::new(&[], answer, "the model says otherwise"));
            }
            return Ok(());
        }
        let uti = self.random.pick(&self.utis);
        let answer = self.long.try_status(uti)?;
        let due = (self.model.status(uti), self.model.identifier(uti));
        if (answer.status, answer.identifier) != due {
            return Err(Mismatch::new(uti, answer, "the model says otherwise"));
        }
        Ok(())
    }

    /// A case with up to four faults.
    fn faulty(&mut self) -> Result<(), Mismatch> {
        let action = *self.random.pick(&ACTIONS);
        let mut case = Case::sound(&mut self.random, action);
        let chosen = faults::some(&mut self.random, &self.faults, action, 4);
        let due = case.break_rules(&mut self.random, &chosen);
        self.single.set_ledger(&case.ledger());
        self.single.set_tape(&case.tape());
        let message = case.message();
        let answer = self.single.try_submit(&message)?;
        if (answer.verdict, answer.element) != due {
            let text = format!("{chosen:?} have to get {due:?}");
            return Err(Mismatch::new(&message, answer, &text));
        }
        self.ask_single()
    }

    /// A message of the life cycle with some bytes changed.
    fn flipped_message(&mut self) -> Result<(), Mismatch> {
        let message = next_message(&mut self.random, &self.model, &self.utis);
        let mut bytes = message.encode();
        garbage::flip(&mut self.random, &mut bytes);
        self.single.set_ledger(self.long.ledger());
        self.submit_single(&bytes)
    }

    /// The ledger of the life cycle with some bytes changed, or some totals.
    fn flipped_ledger(&mut self) -> Result<(), Mismatch> {
        let message = next_message(&mut self.random, &self.model, &self.utis);
        let mut ledger = self.long.ledger().to_vec();
        let used = layout::ledger_size(self.model.rows.len());
        if self.random.once_in(3) {
            garbage::shift_totals(&mut self.random, &mut ledger);
        } else {
            garbage::flip(&mut self.random, &mut ledger[..used]);
        }
        self.single.set_ledger(&ledger);
        self.submit_single(&message.encode())
    }

    /// Random bytes, or a message with wild codes and offsets.
    fn wild(&mut self) -> Result<(), Mismatch> {
        if self.random.once_in(4) {
            self.single
                .set_ledger(&garbage::noise(&mut self.random, 600));
        } else {
            self.single.set_ledger(self.long.ledger());
        }
        let message = if self.random.once_in(3) {
            garbage::noise(&mut self.random, 3000)
        } else {
            garbage::wild_message(&mut self.random)
        };
        self.submit_single(&message)
    }

    fn submit_single(&mut self, message: &[u8]) -> Result<(), Mismatch> {
        let length = values::any_tape_length(&mut self.random);
        self.single.set_tape(&self.random.bytes(length));
        self.single.try_submit(message)?;
        self.ask_single()
    }

    fn ask_single(&mut self) -> Result<(), Mismatch> {
        if self.random.once_in(4) {
            self.single.try_totals()?;
        } else {
            let uti = self.random.pick(&self.utis);
            self.single.try_status(uti)?;
        }
        Ok(())
    }
}
