//! The two that judge: the core and the checker.

use crate::layout::{Caps, TOTALS};
use sdr::Answer;

/// The four operations on lent bytes.
pub trait Judge: Sync {
    /// The name that a report uses.
    fn name(&self) -> &'static str;
    /// Opens a ledger; only the verdict of the answer is used.
    fn open(&self, ledger: &mut [u8], caps: &Caps) -> Answer;
    /// Submits one message.
    fn submit(&self, ledger: &mut [u8], tape: &mut [u8], message: &[u8]) -> Answer;
    /// Asks the status of one swap.
    fn status(&self, ledger: &[u8], uti: &[u8]) -> Answer;
    /// Asks for the totals; only the verdict of the answer is used.
    fn totals(&self, ledger: &[u8], totals: &mut [u32; TOTALS]) -> Answer;
}

/// The core, through its C interface.
pub struct Core;

/// The core, on copies of the buffers that are just as long: a tool that
/// watches memory then sees every read or write outside a buffer.
pub struct Apart;

/// The separately written checker.
pub struct Checker;

/// The judges that the tests compare.
pub const BOTH: [&dyn Judge; 2] = [&Core, &Checker];

/// The judges of a watched run.
pub const WATCHED: [&dyn Judge; 3] = [&Core, &Checker, &Apart];

impl Judge for Core {
    fn name(&self) -> &'static str {
        "core"
    }

    fn open(&self, ledger: &mut [u8], caps: &Caps) -> Answer {
        sdr::open(ledger, caps)
    }

    fn submit(&self, ledger: &mut [u8], tape: &mut [u8], message: &[u8]) -> Answer {
        sdr::submit(ledger, tape, message)
    }

    fn status(&self, ledger: &[u8], uti: &[u8]) -> Answer {
        sdr::status(ledger, uti)
    }

    fn totals(&self, ledger: &[u8], totals: &mut [u32; TOTALS]) -> Answer {
        sdr::totals_into(ledger, totals)
    }
}

impl Judge for Apart {
    fn name(&self) -> &'static str {
        "apart"
    }

    fn open(&self, ledger: &mut [u8], caps: &Caps) -> Answer {
        let mut own: Box<[u8]> = Box::from(&*ledger);
        let answer = sdr::open(&mut own, caps);
        ledger.copy_from_slice(&own);
        answer
    }

    fn submit(&self, ledger: &mut [u8], tape: &mut [u8], message: &[u8]) -> Answer {
        let mut own: [Box<[u8]>; 2] = [Box::from(&*ledger), Box::from(&*tape)];
        let [own_ledger, own_tape] = &mut own;
        let answer = sdr::submit(own_ledger, own_tape, &Box::<[u8]>::from(message));
        ledger.copy_from_slice(own_ledger);
        tape.copy_from_slice(own_tape);
        answer
    }

    fn status(&self, ledger: &[u8], uti: &[u8]) -> Answer {
        sdr::status(&Box::<[u8]>::from(ledger), &Box::<[u8]>::from(uti))
    }

    fn totals(&self, ledger: &[u8], totals: &mut [u32; TOTALS]) -> Answer {
        let mut own = Box::new(*totals);
        let answer = sdr::totals_into(&Box::<[u8]>::from(ledger), &mut own);
        *totals = *own;
        answer
    }
}

impl Judge for Checker {
    fn name(&self) -> &'static str {
        "checker"
    }

    fn open(&self, ledger: &mut [u8], caps: &Caps) -> Answer {
        Answer {
            verdict: checker::open(ledger, caps),
            ..Answer::default()
        }
    }

    fn submit(&self, ledger: &mut [u8], tape: &mut [u8], message: &[u8]) -> Answer {
        translated(checker::submit(ledger, tape, message))
    }

    fn status(&self, ledger: &[u8], uti: &[u8]) -> Answer {
        translated(checker::status(ledger, uti))
    }

    fn totals(&self, ledger: &[u8], totals: &mut [u32; TOTALS]) -> Answer {
        handed_over(checker::totals(ledger), totals)
    }
}

/// Writes the totals into the array and answers the verdict beside them.
fn handed_over(answered: (u8, [u32; TOTALS]), totals: &mut [u32; TOTALS]) -> Answer {
    *totals = answered.1;
    Answer {
        verdict: answered.0,
        ..Answer::default()
    }
}

fn translated(answer: checker::Answer) -> Answer {
    Answer {
        verdict: answer.verdict,
        element: answer.element,
        status: answer.status,
        identifier: answer.identifier,
    }
}
