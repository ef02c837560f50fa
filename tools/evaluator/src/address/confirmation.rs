//! What the answer for the confirming name comes to.

use super::entry::hosted;
use super::Outcome;
use crate::domain::Domain;
use crate::policy;
use crate::txt::{self, Answer, Status};

/// What the confirming name had. A record is given by its index among all records
/// of the answer, from 0.
#[derive(Clone, Debug, PartialEq, Eq)]
pub enum Confirmation {
    /// The name has so many octets, and was not asked.
    TooLong(usize),
    Error,
    /// No policy record.
    NoRecord,
    /// The first policy record, where none has an entry that 23 lets through.
    Agreed {
        record: usize,
    },
    /// The first record with such an entry; every such host is the first host.
    Replaced {
        record: usize,
        begin: usize,
        length: usize,
    },
    /// Another host in that record, with the number of its entry from 1.
    OtherHost {
        record: usize,
        entry: usize,
        host: Domain,
    },
}

impl Confirmation {
    /// "One policy record or more confirms, none is a plain no, an error not known."
    pub fn of(host: &Domain, answer: Answer) -> Confirmation {
        match answer.status {
            Status::None => Confirmation::NoRecord,
            Status::Error => Confirmation::Error,
            // Only answers that can be read are accepted; another would not be known.
            Status::Records => match txt::texts(answer.bytes) {
                Some(texts) => of_texts(host, &texts),
                None => Confirmation::Error,
            },
        }
    }

    pub fn outcome(&self) -> Outcome {
        match *self {
            Confirmation::Error => Outcome::NotKnown,
            Confirmation::TooLong(_) | Confirmation::NoRecord | Confirmation::OtherHost { .. } => {
                Outcome::No
            }
            Confirmation::Agreed { .. } => Outcome::Confirmed,
            Confirmation::Replaced { begin, length, .. } => Outcome::Replaced { begin, length },
        }
    }
}

/// "The first with an entry that 23 lets through replaces the address by its rua
/// text, given as a place in the scratch". There the texts of all records stand one
/// behind the other, also of those that are no policy records.
fn of_texts(host: &Domain, texts: &[Vec<u8>]) -> Confirmation {
    let mut confirmation = Confirmation::NoRecord;
    let mut place = 0;
    for (record, text) in texts.iter().enumerate() {
        if policy::read(text).is_some() {
            if let Some(decided) = by_hosts(host, record, text, place) {
                return decided;
            }
            if confirmation == Confirmation::NoRecord {
                confirmation = Confirmation::Agreed { record };
            }
        }
        place += text.len();
    }
    confirmation
}

/// "if every such host in it is the first host; another host makes the answer a
/// plain no". Nothing if the record has no entry that 23 lets through.
fn by_hosts(first: &Domain, record: usize, text: &[u8], place: usize) -> Option<Confirmation> {
    let hosted = hosted(policy::rua_text(text));
    let other = hosted.iter().find(|own| own.host != *first);
    let (begin, length) = policy::rua_part(text);
    match (hosted.first(), other) {
        (None, _) => None,
        (Some(_), Some(other)) => Some(Confirmation::OtherHost {
            record,
            entry: other.number,
            host: other.host.clone(),
        }),
        (Some(_), None) => Some(Confirmation::Replaced {
            record,
            begin: place + begin,
            length,
        }),
    }
}
