//! How the days were answered.

use std::fmt;

use super::code::Told;
use crate::histories::tally::Tally as Histories;
use crate::refused::Refused;

/// Every refusal of each writer, in its order.
const REPORT: [u8; 6] = [27, 18, 28, 19, 11, 10];
const SUBJECT: [u8; 2] = [11, 10];

#[derive(Clone, Copy, Debug)]
pub enum Writer {
    Report,
    Subject,
}

#[derive(Clone, Debug, Default)]
pub struct Tally {
    pub histories: Histories,
    reports: Counts,
    subjects: Counts,
}

/// What one writer gave.
#[derive(Clone, Debug, Default)]
struct Counts {
    written: u64,
    octets: u64,
    refused: Refused,
}

impl Counts {
    fn add(&mut self, told: Told) {
        match told.0 {
            Ok(length) => {
                self.written += 1;
                self.octets += length as u64;
            }
            Err(refusal) => self.refused.add(refusal.number),
        }
    }

    /// The answer that never came.
    fn lacks(&self, refusals: &[u8]) -> Option<String> {
        let never = |number: &&u8| self.refused.of(**number) == 0;
        match self.written {
            0 => Some("written".to_string()),
            _ => refusals
                .iter()
                .find(never)
                .map(|number| format!("refused {number}")),
        }
    }

    fn with(&self, other: &Counts) -> Counts {
        Counts {
            written: self.written + other.written,
            octets: self.octets + other.octets,
            refused: self.refused.with(&other.refused),
        }
    }

    fn words(&self, refusals: &[u8]) -> String {
        let (written, octets) = (self.written, self.octets);
        let refused = self.refused.listed(refusals);
        format!("{written} written of {octets} octets{refused}")
    }
}

impl Tally {
    /// Counts one call of a writer.
    pub fn add(&mut self, writer: Writer, told: Told) {
        match writer {
            Writer::Report => self.reports.add(told),
            Writer::Subject => self.subjects.add(told),
        }
    }

    /// The error is of an answer that never came.
    pub fn complete(&self) -> Result<(), String> {
        let report = self
            .reports
            .lacks(&REPORT)
            .map(|what| format!("report was {what}"));
        let subject = || {
            self.subjects
                .lacks(&SUBJECT)
                .map(|what| format!("subject was {what}"))
        };
        match report.or_else(subject) {
            Some(what) => Err(format!("no {what} in {} days", self.histories.histories)),
            None => Ok(()),
        }
    }

    /// Both together.
    pub fn with(&self, other: &Tally) -> Tally {
        Tally {
            histories: self.histories.with(&other.histories),
            reports: self.reports.with(&other.reports),
            subjects: self.subjects.with(&other.subjects),
        }
    }
}

impl fmt::Display for Tally {
    fn fmt(&self, out: &mut fmt::Formatter<'_>) -> fmt::Result {
        write!(
            out,
            "{} days: reports ({}), subjects ({}); {}",
            self.histories.histories,
            self.reports.words(&REPORT),
            self.subjects.words(&SUBJECT),
            self.histories
        )
    }
}
