//! A row as it is handed out: "its domain and identifiers in place of the two numbers".

use std::fmt;

use crate::domain::MOST_OCTETS;
use crate::message::{Kind, Outcome, MOST_IDENTIFIERS};

/// A domain or selector "as it spells them".
#[derive(Clone, Copy)]
pub struct Name {
    octets: [u8; MOST_OCTETS],
    length: usize,
}

/// An identifier; "SPF without selector", which is empty.
#[derive(Clone, Copy, Debug, PartialEq, Eq)]
pub struct Identifier {
    pub kind: Kind,
    pub outcome: Outcome,
    pub domain: Name,
    pub selector: Name,
}

#[derive(Clone, Debug)]
pub struct Row {
    /// "16 octets, IPv4 mapped"
    pub source: [u8; 16],
    pub count: u32,
    /// 0 none, 1 quarantine, 2 reject.
    pub disposition: u8,
    /// "whether DKIM aligned, whether SPF aligned"
    pub dkim: bool,
    pub spf: bool,
    pub author: Name,
    /// The first of them were read, as many as are counted.
    read: [Identifier; MOST_IDENTIFIERS],
    ended: usize,
}

const EMPTY: Name = Name {
    octets: [0; MOST_OCTETS],
    length: 0,
};
const UNREAD: Identifier = Identifier {
    kind: Kind::Spf,
    outcome: Outcome::NotPassing,
    domain: EMPTY,
    selector: EMPTY,
};

impl Default for Name {
    fn default() -> Name {
        EMPTY
    }
}

impl Name {
    pub fn octets(&self) -> &[u8] {
        &self.octets[..self.length]
    }

    pub(super) fn clear(&mut self) {
        self.length = 0;
    }

    /// The rule keeps a name within its octets.
    pub(super) fn push(&mut self, octet: u8) {
        self.octets[self.length] = octet;
        self.length += 1;
    }
}

impl PartialEq for Name {
    fn eq(&self, other: &Name) -> bool {
        self.octets() == other.octets()
    }
}

impl Eq for Name {}

impl fmt::Debug for Name {
    fn fmt(&self, out: &mut fmt::Formatter<'_>) -> fmt::Result {
        write!(out, "\"{}\"", self.octets().escape_ascii())
    }
}

impl Default for Row {
    fn default() -> Row {
        Row {
            source: [0; 16],
            count: 0,
            disposition: 0,
            dkim: false,
            spf: false,
            author: EMPTY,
            read: [UNREAD; MOST_IDENTIFIERS],
            ended: 0,
        }
    }
}

impl Row {
    /// "DKIM before SPF", each kind in the order of the text.
    pub fn identifiers(&self) -> &[Identifier] {
        &self.read[..self.ended]
    }

    /// A record begins.
    pub(super) fn clear(&mut self) {
        self.ended = 0;
    }

    /// The identifier that is read.
    pub(super) fn open(&mut self) -> &mut Identifier {
        &mut self.read[self.ended]
    }

    /// The result of the identifier that is read was its last value.
    pub(super) fn close(&mut self, kind: Kind, result: u8) {
        let own = self.open();
        own.kind = kind;
        own.outcome = match result {
            0 => Outcome::NotPassing,
            1 => Outcome::Pass,
            _ => Outcome::TemporaryError,
        };
        if kind == Kind::Spf {
            own.selector = EMPTY;
        }
        self.ended += 1;
    }
}

impl PartialEq for Row {
    fn eq(&self, other: &Row) -> bool {
        let own = |row: &Row| (row.source, row.count, row.disposition, row.dkim, row.spf);
        own(self) == own(other)
            && self.author == other.author
            && self.identifiers() == other.identifiers()
    }
}

impl Eq for Row {}
