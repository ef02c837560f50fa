//! What the texts came to.

use std::fmt;

use crate::refused::Refused;
use evaluator::refusal::Refusal;

/// Every refusal of the reader.
const REFUSALS: [u8; 3] = [20, 21, 22];

#[derive(Clone, Debug, Default)]
pub struct Tally {
    pub texts: u64,
    /// Reports that were written, and their rows held to those that were read.
    pub written: u64,
    pub arrivals: u64,
    pub parts: u64,
    rows: u64,
    whole: u64,
    refused: Refused,
}

impl Tally {
    /// Counts the rows of an arrival, and what came last.
    pub fn add(&mut self, rows: usize, last: Option<Result<(), Refusal>>) {
        self.rows += rows as u64;
        match last {
            Some(Ok(())) => self.whole += 1,
            Some(Err(refusal)) => self.refused.add(refusal.number),
            None => {}
        }
    }

    #[cfg(test)]
    pub fn refused(&self, number: u8) -> u64 {
        self.refused.of(number)
    }

    #[cfg(test)]
    pub fn whole(&self) -> u64 {
        self.whole
    }

    /// The error is of an answer that never came.
    pub fn complete(&self) -> Result<(), String> {
        let counts = [
            ("was written", self.written),
            ("had a row", self.rows),
            ("was read whole", self.whole),
        ];
        self.refused.all_came("text", &counts, &REFUSALS)
    }

    /// Both together.
    pub fn with(&self, other: &Tally) -> Tally {
        Tally {
            texts: self.texts + other.texts,
            written: self.written + other.written,
            arrivals: self.arrivals + other.arrivals,
            parts: self.parts + other.parts,
            rows: self.rows + other.rows,
            whole: self.whole + other.whole,
            refused: self.refused.with(&other.refused),
        }
    }
}

impl fmt::Display for Tally {
    fn fmt(&self, out: &mut fmt::Formatter<'_>) -> fmt::Result {
        let refused = self.refused.listed(&REFUSALS);
        write!(
            out,
            "{} texts and {} written reports, {} arrivals in {} parts: {} rows, {} read \
             whole{refused}",
            self.texts, self.written, self.arrivals, self.parts, self.rows, self.whole
        )
    }
}
