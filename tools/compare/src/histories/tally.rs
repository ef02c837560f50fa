//! How the calls of the histories were answered.

use std::fmt;

use super::history::Call;
use crate::refused::Refused;
use evaluator::refusal::Refusal;

/// Every refusal of a list's calls.
const REFUSALS: [u8; 6] = [11, 12, 13, 14, 27, 28];

#[derive(Clone, Debug, Default)]
pub struct Tally {
    pub histories: u64,
    cleared: u64,
    entered: u64,
    refused: Refused,
}

impl Tally {
    /// Counts one call.
    pub fn add(&mut self, call: &Call, answer: Result<(), Refusal>) {
        match (call, answer) {
            (Call::Clear(_), Ok(())) => self.cleared += 1,
            (Call::Enter { .. }, Ok(())) => self.entered += 1,
            (_, Err(refusal)) => self.refused.add(refusal.number),
        }
    }

    /// The error is of an answer that never came.
    pub fn complete(&self) -> Result<(), String> {
        let accepted = [("clearing", self.cleared), ("entry", self.entered)];
        let accepted = accepted.map(|(what, n)| (format!("{what} was accepted"), n));
        let refused = REFUSALS.map(|number| (format!("call was refused {number}"), number));
        let refused = refused.map(|(what, number)| (what, self.refused.of(number)));
        match accepted.iter().chain(&refused).find(|(_, n)| *n == 0) {
            Some((what, _)) => Err(format!("no {what} in {} histories", self.histories)),
            None => Ok(()),
        }
    }

    /// Both together.
    pub fn with(&self, other: &Tally) -> Tally {
        Tally {
            histories: self.histories + other.histories,
            cleared: self.cleared + other.cleared,
            entered: self.entered + other.entered,
            refused: self.refused.with(&other.refused),
        }
    }
}

impl fmt::Display for Tally {
    fn fmt(&self, out: &mut fmt::Formatter<'_>) -> fmt::Result {
        let accepted = self.cleared + self.entered;
        let calls = accepted + self.refused.all();
        write!(
            out,
            "{} histories, {calls} calls ({accepted} accepted{})",
            self.histories,
            self.refused.listed(&REFUSALS)
        )
    }
}
