//! A day: how its list and rows come to be, and what its report and the subject of its
//! mail are written from.

use std::fmt;

use crate::beside::Beside;
use crate::histories::history::History;
use evaluator::{aggregate, report};
use records::agreement::numbers_words;
use records::code::RecordNumbers;

/// As many octets of a text are shown.
const SHOWN: usize = 200;

#[derive(Clone, Debug, Default, PartialEq, Eq)]
pub struct Day {
    /// All that happens before the report.
    pub history: History,
    /// Which of the history's lists are handed in beside the rows.
    pub beside: usize,
    pub numbers: RecordNumbers,
    pub reporter: Reporter,
    pub subject: Subject,
}

/// What the reporter says of itself and of the report.
#[derive(Clone, Debug, Default, PartialEq, Eq)]
pub struct Reporter {
    pub organization: Vec<u8>,
    pub email: Vec<u8>,
    pub contact: Vec<u8>,
    pub id: Vec<u8>,
    pub begin: u64,
    pub end: u64,
}

#[derive(Clone, Debug, Default, PartialEq, Eq)]
pub struct Subject {
    pub receiver: Vec<u8>,
    pub domain: Vec<u8>,
    pub id: Vec<u8>,
}

impl Day {
    /// The lists of the report, which are empty past the history's.
    pub fn lists(&self) -> Beside {
        self.history
            .beside
            .get(self.beside)
            .cloned()
            .unwrap_or_default()
    }
}

impl Reporter {
    /// As the proved code gets it.
    pub fn lent(&self) -> waslidhaj::Reporter<'_> {
        waslidhaj::Reporter {
            organization: &self.organization,
            email: &self.email,
            contact: &self.contact,
            id: &self.id,
            begin: self.begin,
            end: self.end,
        }
    }

    /// As the second evaluator gets it.
    pub fn given(&self) -> aggregate::Reporter<'_> {
        aggregate::Reporter {
            organization: &self.organization,
            email: &self.email,
            contact: &self.contact,
            id: &self.id,
            begin: self.begin,
            end: self.end,
        }
    }
}

impl Subject {
    /// As the second evaluator gets it.
    pub fn given(&self) -> report::Subject<'_> {
        report::Subject {
            receiver: &self.receiver,
            policy_domain: &self.domain,
            id: &self.id,
        }
    }
}

/// A text, or how it begins.
fn shown(text: &[u8]) -> String {
    let front = text.get(..SHOWN).unwrap_or(text);
    format!("{} octets \"{}\"", text.len(), front.escape_ascii())
}

impl fmt::Display for Day {
    fn fmt(&self, out: &mut fmt::Formatter<'_>) -> fmt::Result {
        let (by, subject) = (&self.reporter, &self.subject);
        write!(out, "{}", self.history.lines(self.history.acts.len()))?;
        writeln!(out, "report beside lists {}", self.beside)?;
        writeln!(out, "settings {}", numbers_words(self.numbers))?;
        writeln!(out, "organization {}", shown(&by.organization))?;
        writeln!(out, "email {}", shown(&by.email))?;
        writeln!(out, "contact {}", shown(&by.contact))?;
        writeln!(out, "id {}", shown(&by.id))?;
        writeln!(out, "from {} to {}", by.begin, by.end)?;
        writeln!(out, "subject: receiver {}", shown(&subject.receiver))?;
        writeln!(out, "subject: domain {}", shown(&subject.domain))?;
        writeln!(out, "subject: id {}", shown(&subject.id))
    }
}
