//! Sheets of walks from domains of few and of many labels, and of the longest:
//! each target of the author's walk in turn has a record or an error.

use crate::label_shapes::{back, even, front, single};
use crate::written::{sheet, text_answer, Record};
use evaluator::domain::{Domain, MOST_OCTETS};

/// A sheet, and what it is there for.
#[derive(Clone, Debug, PartialEq, Eq)]
pub struct WalkSheet {
    pub name: String,
    pub author: Vec<u8>,
    pub sheet: Vec<u8>,
}

/// What one target has, an error if no text.
type Stop = (&'static str, Option<&'static [u8]>);

const STOPS: [Stop; 4] = [
    ("a record", Some(b"v=DMARC1; p=reject")),
    ("psd=y", Some(b"v=DMARC1; p=reject; psd=y")),
    ("psd=n", Some(b"v=DMARC1; p=reject; psd=n")),
    ("an error", None),
];

/// A label that no author has.
const FOREIGN: &[u8] = b"ww.";

/// Up to 10 and 127 labels of one octet; then 246, 247 and 253 octets.
fn authors() -> Vec<Vec<u8>> {
    let mut authors: Vec<Vec<u8>> = (1..=10).chain([127]).map(single).collect();
    authors.extend([even(9, 246), even(9, 247), even(126, MOST_OCTETS)]);
    for labels in [4, 8, 9] {
        authors.extend([even, front, back].map(|shape| shape(labels, MOST_OCTETS)));
    }
    authors
}

/// The error is of a domain that breaks the rule.
pub fn sheets() -> Result<Vec<WalkSheet>, String> {
    let mut sheets = Vec::new();
    for author in authors() {
        let domain = Domain::read(&author).map_err(|place| format!("a bad label at {place}"))?;
        let messages = messages(&domain);
        sheets.extend(messages.iter().map(|message| message.sheet(&author)));
    }
    Ok(sheets)
}

/// The message of an author without records, and those of each target that is
/// asked, what it has and who else is walked.
fn messages(author: &Domain) -> Vec<Message<'_>> {
    let mut messages = vec![Message {
        author,
        stop: None,
        identifier: None,
    }];
    let targets = author.walk_targets().into_iter();
    for target in targets.filter(|target| target.asked_name().is_some()) {
        for stop in STOPS {
            let stopped = identifiers(author, &target).into_iter();
            messages.extend(stopped.map(|identifier| Message {
                author,
                stop: Some((target.clone(), stop)),
                identifier: Some(identifier),
            }));
        }
    }
    messages
}

/// A target with one more label of the author, with one fewer, and with a
/// foreign one.
fn identifiers(author: &Domain, target: &Domain) -> Vec<(&'static str, Domain)> {
    let labels = target.label_count();
    let mut identifiers = vec![("one label more", author.last_labels(labels + 1))];
    if labels > 1 {
        identifiers.push(("one label fewer", author.last_labels(labels - 1)));
    }
    let foreign = Domain::read(&[FOREIGN, target.octets()].concat());
    identifiers.extend(foreign.map(|domain| ("a foreign label", domain)));
    identifiers
}

/// The targets other than that of the stop have no record.
struct Message<'a> {
    author: &'a Domain,
    stop: Option<(Domain, Stop)>,
    identifier: Option<(&'static str, Domain)>,
}

impl Message<'_> {
    fn sheet(&self, author: &[u8]) -> WalkSheet {
        let mut records = vec![Record::author(1, 1, author)];
        let identifier = self.identifier.iter();
        records.extend(identifier.map(|(_, own)| Record::identifier(1, 1, own.octets())));
        let targets = self.targets();
        records.extend(targets.iter().filter_map(|target| self.answer(target)));
        WalkSheet {
            name: self.name(),
            author: author.to_vec(),
            sheet: sheet(&records),
        }
    }

    fn name(&self) -> String {
        let (labels, octets) = (self.author.label_count(), self.author.octets().len());
        let what = match (&self.stop, &self.identifier) {
            (Some((target, (word, _))), Some((relation, _))) => {
                format!("{word} at the last {}, {relation}", target.label_count())
            }
            _ => "no record".to_string(),
        };
        format!("labels {labels}, octets {octets}: {what}")
    }

    /// The targets of all walks, each once.
    fn targets(&self) -> Vec<Domain> {
        let mut targets = self.author.walk_targets();
        let identifier = self.identifier.iter();
        for target in identifier.flat_map(|(_, own)| own.walk_targets()) {
            if !targets.contains(&target) {
                targets.push(target);
            }
        }
        targets
    }

    /// The answer for a target, if it is asked.
    fn answer(&self, target: &Domain) -> Option<Record> {
        let name = target.asked_name()?;
        let stop = self.stop.as_ref().filter(|(at, _)| at == target);
        Some(match stop {
            Some((_, (_, Some(text)))) => Record::answer(0, &name, &text_answer(text)?),
            Some((_, (_, None))) => Record::answer(2, &name, b""),
            None => Record::answer(1, &name, b""),
        })
    }
}
