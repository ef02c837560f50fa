//! Ask 10 of document 02, readings 163 to 170 and 222 to 225: the report read as it
//! arrives.

mod cuts;
mod limits;
mod rows;
mod slow;
mod table;
mod words;
mod written;

use crate::day::day;
use evaluator::message::{Kind, Outcome};
use evaluator::received::{read, Identifier, Reader, Row, Told};
use evaluator::refusal::Refusal;

/// A row as it is handed out.
#[derive(Clone, Debug, PartialEq, Eq)]
pub struct Read {
    pub source: [u8; 16],
    pub count: u32,
    pub disposition: u8,
    /// Whether DKIM and SPF aligned.
    pub aligned: [bool; 2],
    pub author: String,
    /// Kind, outcome, selector and domain.
    pub identifiers: Vec<(Kind, Outcome, String, String)>,
}

fn spelled(octets: &[u8]) -> String {
    String::from_utf8(octets.to_vec()).expect("a name in ASCII")
}

impl Read {
    pub fn of(row: &Row) -> Read {
        let identifier = |own: &Identifier| {
            let names = [own.selector, own.domain].map(|name| spelled(name.octets()));
            let [selector, domain] = names;
            (own.kind, own.outcome, selector, domain)
        };
        Read {
            source: row.source,
            count: row.count,
            disposition: row.disposition,
            aligned: [row.dkim, row.spf],
            author: spelled(row.author.octets()),
            identifiers: row.identifiers().iter().map(identifier).collect(),
        }
    }
}

/// What an uncut text gives.
pub fn whole(text: &[u8]) -> (Vec<Read>, Option<Refusal>) {
    let (rows, end) = read(text);
    (rows.iter().map(Read::of).collect(), end.err())
}

/// Reading 162's report, with something else in the first element of this name.
pub fn with(name: &str, content: &str) -> String {
    let text = day().text();
    let front = front_of(name, content);
    let end = format!("</{name}>");
    let from = text[front.len() - content.len()..]
        .find(&end)
        .expect("an end tag");
    format!("{front}{}", &text[front.len() - content.len() + from..])
}

/// The same up to this content of that element.
pub fn front_of(name: &str, content: &str) -> String {
    let text = day().text();
    let start = format!("<{name}>");
    let begin = text.find(&start).expect("a start tag") + start.len();
    format!("{}{content}", &text[..begin])
}

/// A reader of a front part that is not refused.
pub fn after(front: &str) -> Reader {
    let mut reader = Reader::new();
    let mut rest = front.as_bytes();
    loop {
        let step = reader.step(rest);
        rest = &rest[step.read..];
        match step.told {
            Told::Row(_) => {}
            Told::More => return reader,
            Told::Refused(refusal) => panic!("{refusal}: {front}"),
        }
    }
}

/// The octets that can stand behind a front part; all others are refused 20 there.
pub fn next(front: &str) -> String {
    let reader = after(front);
    let fits = (0..=255).filter(|octet| {
        let mut reader = reader.clone();
        match reader.step(&[*octet]).told {
            Told::Refused(own) => {
                assert_eq!((own.number, own.place), (20, front.len()), "{front}");
                false
            }
            Told::Row(_) | Told::More => true,
        }
    });
    spelled(&fits.collect::<Vec<u8>>())
}

/// The refusal of the octet behind a front part.
pub fn refused(front: &str, octet: char) -> (u8, usize) {
    let mut reader = after(front);
    let Told::Refused(refusal) = reader.step(&[octet as u8]).told else {
        panic!("{front}{octet} is not refused");
    };
    (refusal.number, refusal.place)
}
