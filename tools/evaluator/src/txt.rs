//! Answers: TX records to texts, the limits, and the reply at one name.

use crate::policy::{self, Settings};

/// "one answer: 4,096 octets"
pub const MOST_ANSWER_OCTETS: usize = 4096;
/// "one answer: 16 records"
pub const MOST_RECORDS: usize = 16;

/// "An answer is records, none, or error."
#[derive(Clone, Copy, Debug, PartialEq, Eq)]
pub enum Status {
    Records,
    None,
    Error,
}

/// An answer as it is handed in; bytes beside none or error are not read.
#[derive(Clone, Copy, Debug, PartialEq, Eq)]
pub struct Answer<'a> {
    pub status: Status,
    pub bytes: &'a [u8],
}

impl<'a> Answer<'a> {
    pub const NONE: Answer<'static> = Answer {
        status: Status::None,
        bytes: b"",
    };
    pub const ERROR: Answer<'static> = Answer {
        status: Status::Error,
        bytes: b"",
    };

    pub fn records(bytes: &'a [u8]) -> Answer<'a> {
        let status = Status::Records;
        Answer { status, bytes }
    }
}

/// What a walk finds at one name.
#[derive(Clone, Copy, Debug, PartialEq, Eq)]
pub enum Reply {
    Record(Settings),
    NoRecord,
    Error,
}

/// One record's character-strings.
pub type Strings<'a> = Vec<&'a [u8]>;

/// An answer's records by form alone, whatever their number and length.
pub fn records(bytes: &[u8]) -> Option<Vec<Strings<'_>>> {
    let mut records = Vec::new();
    let mut rest = bytes;
    // "After one record, the rest of the answer is read as an answer again."
    while !rest.is_empty() {
        let (record, after) = record(rest)?;
        records.push(record);
        rest = after;
    }
    Some(records)
}

/// "mark `TX`, 16-bit length (high octet first), then RDATA of TXT"
fn record(bytes: &[u8]) -> Option<(Strings<'_>, &[u8])> {
    let [b'T', b'X', high, low, rest @ ..] = bytes else {
        return None;
    };
    let length = usize::from(u16::from_be_bytes([*high, *low]));
    let (rdata, after) = rest.split_at_checked(length)?;
    Some((strings(rdata)?, after))
}

/// "character-strings, each a length octet and its octets, at least one,
/// filling RDATA exactly"
fn strings(rdata: &[u8]) -> Option<Strings<'_>> {
    let mut strings = Vec::new();
    let mut rest = rdata;
    while let Some((length, tail)) = rest.split_first() {
        let (string, after) = tail.split_at_checked(usize::from(*length))?;
        strings.push(string);
        rest = after;
    }
    (!strings.is_empty()).then_some(strings)
}

/// An answer's texts in record order, or nothing if it is "over a limit or
/// unreadable". "A record's strings are joined without separators."
pub fn texts(bytes: &[u8]) -> Option<Vec<Vec<u8>>> {
    if bytes.len() > MOST_ANSWER_OCTETS {
        return None;
    }
    let records = records(bytes)?;
    if records.len() > MOST_RECORDS {
        return None;
    }
    Some(records.iter().map(|strings| strings.concat()).collect())
}

/// Whether an answer may be accepted: the answer's bytes of status records are
/// within the limits and readable.
pub fn acceptable(answer: Answer) -> bool {
    answer.status != Status::Records || texts(answer.bytes).is_some()
}

/// The reply at a name.
pub fn reply(answer: Answer) -> Reply {
    match answer.status {
        Status::None => Reply::NoRecord,
        Status::Error => Reply::Error,
        // Only acceptable answers are walked over; one that is not would be an
        // error here, never an empty one.
        Status::Records => texts(answer.bytes).map_or(Reply::Error, |texts| {
            single(texts).map_or(Reply::NoRecord, Reply::Record)
        }),
    }
}

/// The texts of an answer: none where it has no records, or cannot be accepted.
pub fn given_texts(answer: Answer) -> Vec<Vec<u8>> {
    let texts = texts(answer.bytes).filter(|_| answer.status == Status::Records);
    texts.unwrap_or_default()
}

/// "texts that are no policy record are dropped. If two or more remain, all are
/// dropped. A single remaining text is the name's record."
fn single(texts: Vec<Vec<u8>>) -> Option<Settings> {
    let mut policies = texts.iter().filter_map(|text| policy::read(text));
    let first = policies.next();
    first.filter(|_| policies.next().is_none())
}
