//! The message: opened, then given its identifiers one by one; its numbers and
//! refusals 1 to 4.

use crate::domain::Domain;
use crate::refusal::Refusal;

/// "up to 16 identifiers"
pub const MOST_IDENTIFIERS: usize = 16;
/// Refusal 3: "255 for the message"
pub const MESSAGE_PLACE: usize = 255;

/// "whether it exists in the DNS (0 no, 1 yes, 2 not known)"
#[derive(Clone, Copy, Debug, PartialEq, Eq)]
pub enum Existence {
    No,
    Yes,
    NotKnown,
}

/// "a kind (0 SPF, 1 DKIM)"
#[derive(Clone, Copy, Debug, PartialEq, Eq)]
pub enum Kind {
    Spf,
    Dkim,
}

/// "an outcome (0 not passing, 1 pass, 2 temporary error)"
#[derive(Clone, Copy, Debug, PartialEq, Eq)]
pub enum Outcome {
    NotPassing,
    Pass,
    TemporaryError,
}

/// The numbers that document 01 lists, each meaning at its number.
const EXISTENCES: [Existence; 3] = [Existence::No, Existence::Yes, Existence::NotKnown];
const SUPPORTS: [bool; 2] = [false, true];
const KINDS: [Kind; 2] = [Kind::Spf, Kind::Dkim];
const OUTCOMES: [Outcome; 3] = [Outcome::NotPassing, Outcome::Pass, Outcome::TemporaryError];

/// The meaning of a number, if it is listed.
fn listed<T: Copy>(meanings: &[T], number: u8) -> Option<T> {
    meanings.get(usize::from(number)).copied()
}

/// The kind and outcome of an identifier that comes behind those of these kinds: 3
/// for numbers that are not listed; 4 for "a 17th identifier, or a second SPF",
/// whatever its outcome.
pub fn admitted(before: &[Kind], kind: u8, outcome: u8) -> Result<(Kind, Outcome), Refusal> {
    let index = before.len();
    let (kind, outcome) = (listed(&KINDS, kind), listed(&OUTCOMES, outcome));
    let (Some(kind), Some(outcome)) = (kind, outcome) else {
        return Err(Refusal::new(3, index));
    };
    let second_spf = kind == Kind::Spf && before.contains(&Kind::Spf);
    if index >= MOST_IDENTIFIERS || second_spf {
        return Err(Refusal::new(4, index));
    }
    Ok((kind, outcome))
}

#[derive(Clone, Debug, PartialEq, Eq)]
pub struct Identifier {
    pub kind: Kind,
    pub outcome: Outcome,
    pub domain: Domain,
}

/// A message as far as it was accepted.
#[derive(Clone, Debug, PartialEq, Eq)]
pub struct Message {
    pub author: Domain,
    pub existence: Existence,
    pub support: bool,
    pub identifiers: Vec<Identifier>,
}

impl Message {
    /// A message without identifiers: "opening keeps 1 and 3".
    pub fn open(author: &[u8], existence: u8, support: u8) -> Result<Message, Refusal> {
        let author = Domain::read(author).map_err(|place| Refusal::new(1, place))?;
        let (existence, support) = (listed(&EXISTENCES, existence), listed(&SUPPORTS, support));
        let (Some(existence), Some(support)) = (existence, support) else {
            return Err(Refusal::new(3, MESSAGE_PLACE));
        };
        Ok(Message {
            author,
            existence,
            support,
            identifiers: Vec::new(),
        })
    }

    /// Adds an identifier, at the index after those that are there: "adding keeps
    /// 3, 4, 2".
    pub fn add(&mut self, kind: u8, outcome: u8, domain: &[u8]) -> Result<(), Refusal> {
        let index = self.identifiers.len();
        let before = self.identifiers.iter().map(|other| other.kind);
        let (kind, outcome) = admitted(&before.collect::<Vec<Kind>>(), kind, outcome)?;
        let domain = Domain::read(domain).map_err(|_| Refusal::new(2, index))?;
        self.identifiers.push(Identifier {
            kind,
            outcome,
            domain,
        });
        Ok(())
    }
}
