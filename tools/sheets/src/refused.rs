//! What a refusal means, in general and for the message that was handed over.

mod broken;

use crate::domain_words;
use crate::written::places;
use evaluator::domain::without_dot;
use evaluator::message::{MESSAGE_PLACE, MOST_IDENTIFIERS};
use evaluator::refusal::Refusal;
use evaluator::sheet::{self, GivenMessage, Sheet};
use evaluator::txt::{self, MOST_ANSWER_OCTETS, MOST_RECORDS};

/// The refusals that a sheet can get: number, reason, and what the place means.
const REFUSALS: [(u8, &str, &str); 6] = [
    (
        1,
        "the author domain breaks the domain rule",
        "the octet of the domain where its first bad label begins; 0 if it is empty, 253 if only its length is wrong; a final dot does not count",
    ),
    (
        2,
        "an identifier's domain breaks the domain rule",
        "the identifier's index, from 0",
    ),
    (
        3,
        "an existence, support, kind or outcome number is not listed",
        "255 for the author's line, else the identifier's index, from 0",
    ),
    (
        4,
        "there is a 17th identifier, or a second SPF one",
        "the identifier's index, from 0",
    ),
    (
        6,
        "the answer to an asked name is unreadable, or over 4096 octets or 16 records",
        "always 0",
    ),
    (
        8,
        "the sheet is broken, or answers one name twice",
        "the octet where the broken record or the second answer begins; 65536 if the sheet is too long",
    ),
];

/// What a refusal's number and its place mean, whatever the message.
pub fn general(number: u8) -> (&'static str, &'static str) {
    let row = REFUSALS.iter().find(|(own, ..)| *own == number);
    row.map_or(("no sheet gets this one", ""), |(_, reason, place)| {
        (*reason, *place)
    })
}

/// What a refusal means for one message.
#[derive(Clone, Debug, PartialEq, Eq)]
pub struct Meaning {
    pub sentence: String,
    /// The place on the sheet of the record that it is about.
    pub place: usize,
}

/// The meaning of the refusal that a sheet got.
pub fn meaning(octets: &[u8], refusal: Refusal) -> Meaning {
    let (sentence, record) = match sheet::read(octets) {
        Err(_) => {
            let sentence = broken::words(octets, refusal.place);
            let place = refusal.place;
            return Meaning { sentence, place };
        }
        Ok(sheet) => of_whole_sheet(octets, &sheet, refusal),
    };
    let place = places(octets).get(record).copied().unwrap_or_default();
    Meaning { sentence, place }
}

/// The sentence, and which record of the sheet it is about.
fn of_whole_sheet(octets: &[u8], sheet: &Sheet, refusal: Refusal) -> (String, usize) {
    let message = &sheet.message;
    let index = refusal.place;
    let identifier = message.identifiers.get(index);
    let domain = identifier.map_or(b"".as_slice(), |given| given.domain);
    let rule = "breaks the rule";
    match refusal.number {
        1 => {
            let why = domain_words::why(message.author);
            (format!("the author domain {rule}: {why}"), 0)
        }
        2 => {
            let why = domain_words::why(domain);
            (format!("the identifier's domain {rule}: {why}"), 1 + index)
        }
        3 if index == MESSAGE_PLACE => (unlisted_in_message(message), 0),
        3 => (unlisted_in_identifier(message, index), 1 + index),
        4 => (one_too_many(index), 1 + index),
        6 => refused_answer(octets, sheet),
        number => (general(number).0.to_string(), 0),
    }
}

fn unlisted_in_message(message: &GivenMessage) -> String {
    let (existence, support) = (message.existence, message.support);
    match existence {
        0..=2 => format!("support {support} is not listed: 0 no, 1 yes"),
        _ => format!("existence {existence} is not listed: 0 no, 1 yes, 2 not known"),
    }
}

fn unlisted_in_identifier(message: &GivenMessage, index: usize) -> String {
    let numbers = |given: &sheet::GivenIdentifier| (given.kind, given.outcome);
    match message.identifiers.get(index).map(numbers) {
        Some((0 | 1, outcome)) => {
            let listed = "0 not passing, 1 pass, 2 temporary error";
            format!("the identifier's outcome {outcome} is not listed: {listed}")
        }
        Some((kind, _)) => format!("the identifier's kind {kind} is not listed: 0 SPF, 1 DKIM"),
        None => general(3).0.to_string(),
    }
}

/// Why the identifier at an index is refused 4.
pub(crate) fn one_too_many(index: usize) -> String {
    match index < MOST_IDENTIFIERS {
        true => "a second SPF identifier, and a message has one at the most".to_string(),
        false => {
            let some = "leave out some whose outcome is fail";
            format!("the 17th identifier, and a message has 16 at the most; {some}")
        }
    }
}

/// Which answer is over a limit or unreadable, and which record has it.
fn refused_answer(octets: &[u8], sheet: &Sheet) -> (String, usize) {
    let Some(asked) = sheet::refused_answer(octets) else {
        return (general(6).0.to_string(), 0);
    };
    let own = |name: &[u8]| without_dot(name).eq_ignore_ascii_case(&asked.name);
    let index = sheet.answers.iter().position(|given| own(given.name));
    let bytes = sheet.given(&asked.name).map(|given| given.answer.bytes);
    let sentence = refused_bytes(&asked.name, bytes.unwrap_or_default());
    let before = 1 + sheet.message.identifiers.len();
    (sentence, before + index.unwrap_or_default())
}

/// Why the bytes of a name's answer are refused 6.
pub(crate) fn refused_bytes(name: &[u8], bytes: &[u8]) -> String {
    let (name, why) = (String::from_utf8_lossy(name), over_a_limit(bytes));
    format!("the answer for {name} {why}; hand it in as an error, never as none")
}

fn over_a_limit(bytes: &[u8]) -> String {
    let records = txt::records(bytes).map(|records| records.len());
    match (bytes.len(), records) {
        (octets, _) if octets > MOST_ANSWER_OCTETS => {
            let counted = "4 for each record and 1 for each string among them";
            format!("has {octets} octets, {counted}, and 4,096 at the most")
        }
        (_, Some(records)) if records > MOST_RECORDS => {
            format!("has {records} records, and {MOST_RECORDS} at the most")
        }
        _ => "cannot be read as TXT records".to_string(),
    }
}
