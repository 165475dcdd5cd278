//! Counts of what was asked and answered.

use crate::lists::LAST_CODE;
use crate::order::{HIGHEST_VERDICT, OPENING, SUBMITTING};
use sdr::{Answer, ACCEPTED};
use std::fmt;

/// The verdict numbers, from 0.
const VERDICTS: usize = HIGHEST_VERDICT as usize + 1;
/// The element codes, and 0 for none.
const CODES: usize = LAST_CODE as usize + 1;

/// How often each verdict, with each element, was answered.
#[derive(Clone)]
pub struct Tally {
    /// Ledgers opened or refused.
    pub openings: u64,
    /// Messages submitted.
    pub submissions: u64,
    /// Questions for a status or for the totals.
    pub questions: u64,
    answers: [[u64; CODES]; VERDICTS],
}

impl Default for Tally {
    fn default() -> Self {
        Tally {
            openings: 0,
            submissions: 0,
            questions: 0,
            answers: [[0; CODES]; VERDICTS],
        }
    }
}

impl Tally {
    /// Counts an opening.
    pub fn opening(&mut self, answer: Answer) {
        self.openings += 1;
        self.count(answer);
    }

    /// Counts a submission.
    pub fn submission(&mut self, answer: Answer) {
        self.submissions += 1;
        self.count(answer);
    }

    /// Counts a question, whose verdicts are not those of submissions.
    pub fn question(&mut self) {
        self.questions += 1;
    }

    /// Adds what another has counted.
    pub fn add(&mut self, other: &Tally) {
        self.openings += other.openings;
        self.submissions += other.submissions;
        self.questions += other.questions;
        for (mine, others) in self.answers.iter_mut().zip(&other.answers) {
            for (count, more) in mine.iter_mut().zip(others) {
                *count += more;
            }
        }
    }

    /// How often a verdict was answered.
    pub fn verdict(&self, verdict: u8) -> u64 {
        self.answers[usize::from(verdict)].iter().sum()
    }

    /// How often a verdict was answered with an element.
    pub fn element(&self, verdict: u8, element: u8) -> u64 {
        self.answers[usize::from(verdict)][usize::from(element)]
    }

    fn count(&mut self, answer: Answer) {
        self.answers[usize::from(answer.verdict)][usize::from(answer.element)] += 1;
    }
}

impl fmt::Display for Tally {
    fn fmt(&self, out: &mut fmt::Formatter) -> fmt::Result {
        write!(
            out,
            "{} openings, {} submissions, {} questions; verdicts",
            self.openings, self.submissions, self.questions
        )?;
        let refusals = OPENING.into_iter().chain(SUBMITTING);
        for verdict in [ACCEPTED].into_iter().chain(refusals) {
            write!(out, " {}:{}", verdict, self.verdict(verdict))?;
        }
        Ok(())
    }
}
