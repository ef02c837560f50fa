//! The code that is held to the second evaluator.

mod proved;

use std::fmt;

pub use proved::Proved;

use crate::beside::Member;
use evaluator::message::{Kind, Outcome};
use evaluator::received::{self, Identifier};
use evaluator::refusal::Refusal;

/// A row as it is handed out, by numbers; identifiers as they are written in a set.
#[derive(Clone, Debug, Default, PartialEq, Eq)]
pub struct Row {
    pub source: [u8; 16],
    pub count: u32,
    pub disposition: u8,
    pub dkim: bool,
    pub spf: bool,
    pub author: Vec<u8>,
    pub identifiers: Vec<Member>,
}

#[derive(Clone, Debug, PartialEq, Eq)]
pub enum Told {
    /// A record ended.
    Row(Box<Row>),
    /// All of the part was read, or the end is accepted.
    More,
    Refused(Refusal),
}

/// What a part gives, with the octets of it that were read; where it is refused these are
/// not compared.
#[derive(Clone, Debug, PartialEq, Eq)]
pub struct Step {
    pub read: usize,
    pub told: Told,
}

/// Readers by their functions; the error is of what no call may give.
pub trait Code {
    type State;

    /// A reader of which nothing was read.
    fn start(&self) -> Self::State;

    /// Reads a part as far as the end of a record, a refusal, or its own end.
    fn step(&self, state: &mut Self::State, part: &[u8]) -> Result<Step, String>;

    /// The end is declared.
    fn end(&self, state: &mut Self::State) -> Result<Told, String>;
}

impl Row {
    /// The second evaluator's.
    pub fn of(row: &received::Row) -> Row {
        Row {
            source: row.source,
            count: row.count,
            disposition: row.disposition,
            dkim: row.dkim,
            spf: row.spf,
            author: row.author.octets().to_vec(),
            identifiers: row.identifiers().iter().map(member).collect(),
        }
    }
}

fn member(identifier: &Identifier) -> Member {
    Member {
        kind: kind_number(identifier.kind),
        outcome: outcome_number(identifier.outcome),
        selector: identifier.selector.octets().to_vec(),
        domain: identifier.domain.octets().to_vec(),
    }
}

/// "a kind (0 SPF, 1 DKIM)"
pub fn kind_number(kind: Kind) -> u8 {
    match kind {
        Kind::Spf => 0,
        Kind::Dkim => 1,
    }
}

/// "an outcome (0 not passing, 1 pass, 2 temporary error)"
pub fn outcome_number(outcome: Outcome) -> u8 {
    match outcome {
        Outcome::NotPassing => 0,
        Outcome::Pass => 1,
        Outcome::TemporaryError => 2,
    }
}

impl Told {
    /// The second evaluator's.
    pub fn of(told: received::Told<'_>) -> Told {
        match told {
            received::Told::Row(row) => Told::Row(Box::new(Row::of(row))),
            received::Told::More => Told::More,
            received::Told::Refused(refusal) => Told::Refused(refusal),
        }
    }

    pub fn of_end(end: Result<(), Refusal>) -> Told {
        end.map_or_else(Told::Refused, |()| Told::More)
    }
}

impl fmt::Display for Told {
    fn fmt(&self, out: &mut fmt::Formatter<'_>) -> fmt::Result {
        match self {
            Told::Row(row) => write!(out, "{row}"),
            Told::More => out.write_str("accepted"),
            Told::Refused(refusal) => write!(out, "{refusal}"),
        }
    }
}

impl fmt::Display for Row {
    fn fmt(&self, out: &mut fmt::Formatter<'_>) -> fmt::Result {
        write!(out, "row of {:?} count={}", self.source, self.count)?;
        let (disposition, dkim, spf) = (self.disposition, self.dkim, self.spf);
        write!(out, " disposition={disposition} dkim={dkim} spf={spf}")?;
        write!(out, " \"{}\"", self.author.escape_ascii())?;
        for own in &self.identifiers {
            let (kind, outcome) = (own.kind, own.outcome);
            let (selector, domain) = (own.selector.escape_ascii(), own.domain.escape_ascii());
            write!(out, " [{kind} {outcome} \"{selector}\" \"{domain}\"]")?;
        }
        Ok(())
    }
}
