//! Reading a sheet and running its message.

use std::collections::HashMap;

use crate::domain::{fault, without_dot};
use crate::evaluate::{evaluate, Progress};
use crate::grounds::Grounds;
use crate::message::Message;
use crate::refusal::Refusal;
use crate::txt::{self, Answer, Status};
use crate::verdict::Verdict;
use crate::walk::AskedName;

/// "or over 65,536 octets"
pub const MOST_OCTETS: usize = 65_536;

/// An `ID` record.
#[derive(Clone, Copy, Debug, PartialEq, Eq)]
pub struct GivenIdentifier<'a> {
    pub kind: u8,
    pub outcome: u8,
    pub domain: &'a [u8],
}

/// The `AU` record, and the `ID` records.
#[derive(Clone, Debug, PartialEq, Eq)]
pub struct GivenMessage<'a> {
    pub author: &'a [u8],
    pub existence: u8,
    pub support: u8,
    pub identifiers: Vec<GivenIdentifier<'a>>,
}

impl GivenMessage<'_> {
    /// The message opened, and its identifiers added in turn: the first refusal
    /// among 1 to 4 is the sheet's.
    pub fn accepted(&self) -> Result<Message, Refusal> {
        let mut message = Message::open(self.author, self.existence, self.support)?;
        for given in &self.identifiers {
            message.add(given.kind, given.outcome, given.domain)?;
        }
        Ok(message)
    }
}

/// An `AN` record.
#[derive(Clone, Copy, Debug, PartialEq, Eq)]
pub struct GivenAnswer<'a> {
    /// As it stands there, with its final dot if it has one.
    pub name: &'a [u8],
    pub answer: Answer<'a>,
}

/// A sheet without refusal 8.
#[derive(Clone, Debug, PartialEq, Eq)]
pub struct Sheet<'a> {
    pub message: GivenMessage<'a>,
    pub answers: Vec<GivenAnswer<'a>>,
    /// Where each answered name stands among the answers, by lower case and
    /// without a final dot.
    by_name: HashMap<Vec<u8>, usize>,
}

/// The octets of a sheet record: its mark and its body.
struct Record<'a> {
    mark: [u8; 2],
    body: &'a [u8],
    end: usize,
}

/// Reads a sheet, or gives "the first 8".
pub fn read(octets: &[u8]) -> Result<Sheet<'_>, Refusal> {
    let mut sheet: Option<Sheet> = None;
    let mut place = 0;
    // An empty sheet has no record at place 0 either.
    while place < octets.len() || place == 0 {
        let record = record(octets, place)?;
        take(&mut sheet, &record).ok_or(Refusal::new(8, place))?;
        place = record.end;
    }
    sheet.ok_or(Refusal::new(8, 0))
}

/// The record whose mark stands at a place.
fn record(octets: &[u8], place: usize) -> Result<Record<'_>, Refusal> {
    let rest = octets.get(place..).unwrap_or_default();
    let head = rest.first_chunk::<4>();
    let length = head.map_or(0, |[_, _, high, low]| u16::from_be_bytes([*high, *low]));
    let end = place + 4 + usize::from(length);
    // "place 65,536 if no record that ends by there is wrong"
    if octets.len() > MOST_OCTETS && end > MOST_OCTETS {
        return Err(Refusal::new(8, MOST_OCTETS));
    }
    // "a body ... past the end, octets left over"
    match (head, octets.get(place + 4..end)) {
        (Some([first, second, _, _]), Some(body)) => Ok(Record {
            mark: [*first, *second],
            body,
            end,
        }),
        _ => Err(Refusal::new(8, place)),
    }
}

/// Takes the next record into the sheet; nothing if it is broken, or answers a
/// name a second time.
fn take<'a>(sheet: &mut Option<Sheet<'a>>, record: &Record<'a>) -> Option<()> {
    let Some(sheet) = sheet else {
        // "`AU` once, first"
        *sheet = Some(author(record.body).filter(|_| record.mark == *b"AU")?);
        return Some(());
    };
    match &record.mark {
        // "`ID`s come before `AN`s."
        b"ID" if sheet.answers.is_empty() => {
            sheet.message.identifiers.push(identifier(record.body)?);
            Some(())
        }
        b"AN" => sheet.take_answer(answer(record.body)?),
        _ => None,
    }
}

/// "`AU` ...: existence, support, domain"; "a domain fills the rest of its body".
fn author(body: &[u8]) -> Option<Sheet<'_>> {
    let [existence, support, author @ ..] = body else {
        return None;
    };
    Some(Sheet {
        message: GivenMessage {
            author,
            existence: *existence,
            support: *support,
            identifiers: Vec::new(),
        },
        answers: Vec::new(),
        by_name: HashMap::new(),
    })
}

/// "`ID`: kind, outcome, domain."
fn identifier(body: &[u8]) -> Option<GivenIdentifier<'_>> {
    let [kind, outcome, domain @ ..] = body else {
        return None;
    };
    Some(GivenIdentifier {
        kind: *kind,
        outcome: *outcome,
        domain,
    })
}

/// "`AN`: status (0 records, 1 none, 2 error), name length, whole asked name,
/// then for status 0 the answer's bytes, else nothing."
fn answer(body: &[u8]) -> Option<GivenAnswer<'_>> {
    let [status, length, rest @ ..] = body else {
        return None;
    };
    let status = match status {
        0 => Status::Records,
        1 => Status::None,
        2 => Status::Error,
        _ => return None,
    };
    let (name, bytes) = rest.split_at_checked(usize::from(*length))?;
    let whole = fault(name).is_none() && (status == Status::Records || bytes.is_empty());
    whole.then_some(GivenAnswer {
        name,
        answer: Answer { status, bytes },
    })
}

impl<'a> Sheet<'a> {
    fn take_answer(&mut self, answer: GivenAnswer<'a>) -> Option<()> {
        let index = self.answers.len();
        let name = without_dot(answer.name).to_ascii_lowercase();
        let earlier = self.by_name.insert(name, index);
        self.answers.push(answer);
        earlier.is_none().then_some(())
    }

    /// What stands on the sheet for a name in lower case without a final dot.
    pub fn given(&self, name: &[u8]) -> Option<&GivenAnswer<'a>> {
        self.by_name.get(name).and_then(|at| self.answers.get(*at))
    }

    /// The answer to an asked name; nothing if it is over a limit or unreadable.
    /// "An asked name that has no `AN` is an error."
    fn answer(&self, name: &[u8]) -> Option<Answer<'a>> {
        let given = self.given(name);
        let answer = given.map_or(Answer::ERROR, |given| given.answer);
        txt::acceptable(answer).then_some(answer)
    }

    /// The texts under an asked name, in record order.
    pub fn texts(&self, name: &[u8]) -> Vec<Vec<u8>> {
        self.answer(name).map_or(Vec::new(), txt::given_texts)
    }
}

/// The whole output for a sheet.
pub fn run(octets: &[u8]) -> Vec<u8> {
    match verdict(octets) {
        Ok((names, verdict)) => output(&names, &verdict),
        Err(refusal) => format!("{refusal}\n").into_bytes(),
    }
}

/// A verdict, with its message and all that it rests on.
#[derive(Clone, Debug, PartialEq, Eq)]
pub struct Reasoned {
    pub message: Message,
    pub names: Vec<AskedName>,
    pub verdict: Verdict,
    pub grounds: Grounds,
}

/// The names asked and the verdict.
pub fn verdict(octets: &[u8]) -> Result<(Vec<AskedName>, Verdict), Refusal> {
    let reasoned = reasoned(octets)?;
    Ok((reasoned.names, reasoned.verdict))
}

/// The asked name whose answer gets the sheet refusal 6, if one does.
pub fn refused_answer(octets: &[u8]) -> Option<AskedName> {
    let sheet = read(octets).ok()?;
    let message = sheet.message.accepted().ok()?;
    match evaluate(&message, |name| sheet.answer(name)).progress {
        Progress::Ask(asked) => Some(asked),
        Progress::Verdict(_) => None,
    }
}

/// "The first 8 is given before any other refusal; then 1 to 4; then 6, when
/// that name is asked."
pub fn reasoned(octets: &[u8]) -> Result<Reasoned, Refusal> {
    let sheet = read(octets)?;
    let message = sheet.message.accepted()?;
    let evaluation = evaluate(&message, |name| sheet.answer(name));
    match (evaluation.progress, evaluation.grounds) {
        (Progress::Verdict(verdict), Some(grounds)) => Ok(Reasoned {
            message,
            names: evaluation.names,
            verdict,
            grounds,
        }),
        _ => Err(Refusal::new(6, 0)),
    }
}

fn output(names: &[AskedName], verdict: &Verdict) -> Vec<u8> {
    let mut text = Vec::new();
    for asked in names {
        text.extend(b"ask ");
        text.extend(&asked.name);
        text.push(b'\n');
    }
    let lines = format!(
        "result {}\npolicy {}\ndisposition {}\nasked {}\n",
        verdict.result.word(),
        verdict.policy.word(),
        verdict.disposition.word(),
        verdict.asked
    );
    text.extend(lines.bytes());
    text
}
