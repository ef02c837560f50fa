//! What the cases came to.

use std::fmt;

use crate::refused::Refused;
use records::agreement::Written;

/// Every refusal of the writer.
const REFUSALS: [u8; 3] = [15, 16, 10];

#[derive(Clone, Debug, Default)]
pub struct Tally {
    written: u64,
    refused: Refused,
    records: u64,
    no_records: u64,
    /// Texts whose settings were written again.
    pub again: u64,
}

impl Tally {
    pub fn wrote(&mut self, written: &Written) {
        match written {
            Ok(_) => self.written += 1,
            Err(refusal) => self.refused.add(refusal.number),
        }
    }

    pub fn read(&mut self, is_record: bool) {
        match is_record {
            true => self.records += 1,
            false => self.no_records += 1,
        }
    }

    /// The error is of an answer that never came.
    pub fn complete(&self) -> Result<(), String> {
        let counts = [
            ("settings were written".to_string(), self.written),
            ("text was a record".to_string(), self.records),
            ("text was no record".to_string(), self.no_records),
            ("text was written again".to_string(), self.again),
        ];
        let refusal = |number| {
            let what = format!("settings were refused {number}");
            (what, self.refused.of(number))
        };
        let mut counts = counts.into_iter().chain(REFUSALS.map(refusal));
        match counts.find(|(_, count)| *count == 0) {
            Some((what, _)) => Err(format!("no {what}")),
            None => Ok(()),
        }
    }

    /// Both together.
    pub fn with(&self, other: &Tally) -> Tally {
        Tally {
            written: self.written + other.written,
            refused: self.refused.with(&other.refused),
            records: self.records + other.records,
            no_records: self.no_records + other.no_records,
            again: self.again + other.again,
        }
    }
}

impl fmt::Display for Tally {
    fn fmt(&self, out: &mut fmt::Formatter<'_>) -> fmt::Result {
        let settings = self.written + self.refused.all();
        let refused = self.refused.listed(&REFUSALS);
        let texts = self.records + self.no_records;
        write!(
            out,
            "{settings} settings ({} written{refused}) and {texts} texts ({} records, \
             {} of them written again, {} no record)",
            self.written, self.records, self.again, self.no_records
        )
    }
}
