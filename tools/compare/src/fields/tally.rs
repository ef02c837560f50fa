//! What the fields came to.

use std::fmt;

use crate::refused::Refused;
use evaluator::field::Methods;
use records::field::code::Read;

/// Every refusal of the reader.
const REFUSALS: [u8; 3] = [24, 25, 26];

#[derive(Clone, Debug, Default)]
pub struct Tally {
    none: u64,
    dkim: u64,
    spf: u64,
    both: u64,
    refused: Refused,
}

impl Tally {
    pub fn add(&mut self, read: &Read) {
        match read {
            Ok(methods) => *self.of(*methods) += 1,
            Err(refusal) => self.refused.add(refusal.number),
        }
    }

    fn of(&mut self, methods: Methods) -> &mut u64 {
        match (methods.dkim, methods.spf) {
            (false, false) => &mut self.none,
            (true, false) => &mut self.dkim,
            (false, true) => &mut self.spf,
            (true, true) => &mut self.both,
        }
    }

    /// How many were read.
    pub fn read(&self) -> u64 {
        self.none + self.dkim + self.spf + self.both
    }

    #[cfg(test)]
    pub fn refused(&self, number: u8) -> u64 {
        self.refused.of(number)
    }

    /// How many there were in all.
    pub fn fields(&self) -> u64 {
        self.read() + self.refused.all()
    }

    /// The error is of an answer that never came.
    pub fn complete(&self) -> Result<(), String> {
        let counts = [
            ("was read as none", self.none),
            ("was read as dkim", self.dkim),
            ("was read as spf", self.spf),
            ("was read as both", self.both),
        ];
        self.refused.all_came("field", &counts, &REFUSALS)
    }

    /// Both together.
    pub fn with(&self, other: &Tally) -> Tally {
        Tally {
            none: self.none + other.none,
            dkim: self.dkim + other.dkim,
            spf: self.spf + other.spf,
            both: self.both + other.both,
            refused: self.refused.with(&other.refused),
        }
    }
}

impl fmt::Display for Tally {
    fn fmt(&self, out: &mut fmt::Formatter<'_>) -> fmt::Result {
        let refused = self.refused.listed(&REFUSALS);
        write!(
            out,
            "{} read (none {}, dkim {}, spf {}, both {}){refused}",
            self.read(),
            self.none,
            self.dkim,
            self.spf,
            self.both
        )
    }
}
