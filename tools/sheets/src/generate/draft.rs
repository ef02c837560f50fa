//! A sheet before it is written.

use crate::written::{self, Record};
use evaluator::domain::Domain;

#[derive(Clone, Debug, Default)]
pub struct Draft {
    pub author: Vec<u8>,
    pub existence: u8,
    pub support: u8,
    pub identifiers: Vec<DraftIdentifier>,
    pub answers: Vec<DraftAnswer>,
}

#[derive(Clone, Debug)]
pub struct DraftIdentifier {
    pub kind: u8,
    pub outcome: u8,
    pub domain: Vec<u8>,
}

#[derive(Clone, Debug, Default)]
pub struct DraftAnswer {
    pub status: u8,
    pub name: Vec<u8>,
    pub bytes: Vec<u8>,
}

impl DraftIdentifier {
    fn record(&self) -> Record {
        Record::identifier(self.kind, self.outcome, &self.domain)
    }
}

impl DraftAnswer {
    pub fn record(&self) -> Record {
        Record::answer(self.status, &self.name, &self.bytes)
    }
}

impl Draft {
    pub fn records(&self) -> Vec<Record> {
        let mut records = vec![Record::author(self.existence, self.support, &self.author)];
        records.extend(self.identifiers.iter().map(DraftIdentifier::record));
        records.extend(self.answers.iter().map(DraftAnswer::record));
        records
    }

    pub fn octets(&self) -> Vec<u8> {
        written::sheet(&self.records())
    }

    /// The names that its walks could ask, in lower case, those of the author's
    /// walk first.
    pub fn names(&self) -> Vec<Vec<u8>> {
        let mut names = walk_names(&self.author);
        for identifier in &self.identifiers {
            names.extend(walk_names(&identifier.domain));
        }
        names
    }
}

/// The names that walks from a domain could ask, in lower case.
pub fn walk_names(domain: &[u8]) -> Vec<Vec<u8>> {
    let targets = Domain::read(domain).map_or(Vec::new(), |domain| domain.walk_targets());
    targets.iter().filter_map(Domain::asked_name).collect()
}
