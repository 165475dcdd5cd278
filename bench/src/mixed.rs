//! The mixed day: what desks send on a day, most of it sound.

use crate::due::Due;
use crate::faults;
use crate::ledgers::Ledger;
use crate::messages::{execution_time, sound, sound_new};
use crate::utis::Shape;
use compare::message::Message;
use compare::random::Random;
use sdr::{CLOSED, ERRORED, LEDGER_FULL, LIVE, NOT_ADMITTED, OTHER_TIME};

/// A message with what is due for it.
pub struct Sent {
    pub message: Vec<u8>,
    pub due: Due,
    /// The row that it changes, where there is one already.
    pub place: Option<usize>,
}

/// Where the messages of a mixed day come from.
pub struct Mixed {
    random: Random,
    shape: Shape,
    /// The number of the next new swap.
    next: usize,
    /// One message in so many about a live swap ports it.
    porting: usize,
}

impl Mixed {
    /// Messages about the swaps of a ledger, and about new ones.
    pub fn about(ledger: &Ledger, shape: Shape, porting: usize) -> Mixed {
        Mixed {
            random: Random::new(3),
            shape,
            next: ledger.rows(),
            porting,
        }
    }

    /// The next message, for a ledger as it now is.
    pub fn next(&mut self, ledger: &Ledger) -> Sent {
        match self.random.below(20) {
            0..=5 => self.new_swap(ledger),
            _ if ledger.rows() == 0 => self.new_swap(ledger),
            6 => self.faulty(),
            7 => self.late(ledger),
            _ => self.step(ledger),
        }
    }

    fn new_uti(&mut self) -> String {
        let number = self.next;
        self.next += 1;
        self.shape.uti(number)
    }

    fn new_swap(&mut self, ledger: &Ledger) -> Sent {
        let uti = self.new_uti();
        let full = ledger.rows() == ledger.capacity();
        Sent {
            message: sound_new(&mut self.random, &uti).encode(),
            due: if full {
                Due::Refused(LEDGER_FULL)
            } else {
                Due::Line
            },
            place: None,
        }
    }

    /// Refused by the message alone.
    fn faulty(&mut self) -> Sent {
        let uti = self.new_uti();
        let random = &mut self.random;
        if random.once_in(9) {
            let message = faults::element_not_taken(&sound(random, "TERM", &uti, ""));
            return refused(message, sdr::ELEMENT_NOT_TAKEN);
        }
        let full = sound_new(random, &uti);
        let (message, verdict) = faults::any(random, &full);
        Sent {
            message,
            due: Due::Refused(verdict),
            place: None,
        }
    }

    /// Refused by the ledger: a swap that is known already, or a live one
    /// with another execution time.
    fn late(&mut self, ledger: &Ledger) -> Sent {
        let random = &mut self.random;
        let place = random.below(ledger.rows());
        let uti = ledger.uti(place);
        let stored = ledger.execution_time(place);
        let other = execution_time(random);
        if ledger.status(place) != LIVE || other == stored {
            return refused(sound_new(random, &uti), NOT_ADMITTED);
        }
        refused(sound(random, "MODI", &uti, &other), OTHER_TIME)
    }

    /// A step in the life of a known swap; a ported one admits none. A change
    /// shows new terms.
    fn step(&mut self, ledger: &Ledger) -> Sent {
        let random = &mut self.random;
        let place = random.below(ledger.rows());
        let (uti, execution) = (ledger.uti(place), ledger.execution_time(place));
        let action = match ledger.status(place) {
            LIVE if random.once_in(self.porting) => "PRTO",
            LIVE => random.pick(&["MODI", "MODI", "MODI", "CORR", "TERM", "EROR"]),
            CLOSED => random.pick(&["CORR", "EROR", "REVI"]),
            ERRORED => "REVI",
            _ => return refused(sound(random, "MODI", &uti, &execution), NOT_ADMITTED),
        };
        Sent {
            message: sound(random, action, &uti, &execution).encode(),
            due: match action {
                "PRTO" => Due::NoLine,
                _ => Due::Line,
            },
            place: Some(place),
        }
    }
}

fn refused(message: Message, verdict: u8) -> Sent {
    Sent {
        message: message.encode(),
        due: Due::Refused(verdict),
        place: None,
    }
}
