//! One call, what it gives, and its line.

use std::fmt;

use super::told::Told;
use crate::description::quoted;
use crate::programs::lent::{sums, used, FILL};
use crate::written::{hex, status_number};
use evaluator::book::Book;
use evaluator::refusal::Refusal;
use evaluator::txt::{Answer, Status};

/// One call. Of an answer and a field it has the size of the lent memory.
#[derive(Clone, Debug, PartialEq, Eq)]
pub enum Call {
    Open(OpenCall),
    Add(AddCall),
    Next,
    Answer(AnswerCall),
    Result,
    Field { size: u16 },
    Finding,
}

/// What an evaluation is opened with.
#[derive(Clone, Debug, PartialEq, Eq)]
pub struct OpenCall {
    pub author: Vec<u8>,
    pub existence: u8,
    pub support: u8,
}

/// An identifier as it is added.
#[derive(Clone, Debug, PartialEq, Eq)]
pub struct AddCall {
    pub kind: u8,
    pub outcome: u8,
    pub domain: Vec<u8>,
}

/// An answer for a name, and the size of the lent scratch.
#[derive(Clone, Debug, PartialEq, Eq)]
pub struct AnswerCall {
    pub status: Status,
    pub scratch: u16,
    pub name: Vec<u8>,
    pub bytes: Vec<u8>,
}

impl Call {
    /// The word of the call.
    pub fn word(&self) -> &'static str {
        match self {
            Call::Open(_) => "open",
            Call::Add(_) => "add",
            Call::Next => "next",
            Call::Answer(_) => "answer",
            Call::Result => "result",
            Call::Field { .. } => "field",
            Call::Finding => "finding",
        }
    }

    /// How many octets are lent.
    pub fn lent(&self) -> usize {
        match self {
            Call::Answer(given) => usize::from(given.scratch),
            Call::Field { size } => usize::from(*size),
            _ => 0,
        }
    }

    /// Makes the call on a book with this lent memory.
    pub fn make(&self, book: &mut Book, lent: &mut [u8]) -> Told {
        let accepted = |()| Told::Accepted;
        match self {
            Call::Open(given) => Told::of(given.make(book), accepted),
            Call::Add(given) => Told::of(given.make(book), accepted),
            Call::Next => Told::of(book.next_step(), Told::step),
            Call::Answer(given) => Told::of(given.make(book, lent), accepted),
            Call::Result => Told::of(book.result(), Told::Verdict),
            Call::Field { .. } => Told::of(book.field(lent), Told::Wrote),
            Call::Finding => Told::of(book.finding(), Told::Finding),
        }
    }

    /// Makes the call with lent memory filled with 255, and gives its line: its
    /// word, what it gives, and what the lent memory holds then.
    pub fn line(&self, book: &mut Book) -> String {
        let mut lent = vec![FILL; self.lent()];
        let told = self.make(book, &mut lent);
        let lent = match self {
            Call::Answer(_) => format!(" scratch={}", sums(&lent)),
            Call::Field { .. } => format!(" out={}:{}", sums(&lent), hex(used(&lent))),
            _ => String::new(),
        };
        format!("{} {told}{lent}", self.word())
    }
}

impl fmt::Display for Call {
    /// The call with all that is handed in.
    fn fmt(&self, out: &mut fmt::Formatter<'_>) -> fmt::Result {
        out.write_str(self.word())?;
        match self {
            Call::Open(given) => {
                let (existence, support) = (given.existence, given.support);
                let author = quoted(&given.author);
                write!(out, " {author} existence={existence} support={support}")
            }
            Call::Add(given) => {
                let domain = quoted(&given.domain);
                write!(
                    out,
                    " kind={} outcome={} {domain}",
                    given.kind, given.outcome
                )
            }
            Call::Answer(given) => write!(out, " {given}"),
            Call::Field { size } => write!(out, " of {size}"),
            Call::Next | Call::Result | Call::Finding => Ok(()),
        }
    }
}

impl fmt::Display for AnswerCall {
    fn fmt(&self, out: &mut fmt::Formatter<'_>) -> fmt::Result {
        let (status, name) = (status_number(self.status), quoted(&self.name));
        let (bytes, scratch) = (quoted(&self.bytes), self.scratch);
        write!(out, "{name} status={status} {bytes} scratch of {scratch}")
    }
}

impl OpenCall {
    /// An opening with an author that exists, and support.
    pub fn of(author: &[u8]) -> OpenCall {
        OpenCall {
            author: author.to_vec(),
            existence: 1,
            support: 1,
        }
    }

    pub fn make(&self, book: &mut Book) -> Result<(), Refusal> {
        book.open(&self.author, self.existence, self.support)
    }
}

impl AddCall {
    pub fn new(kind: u8, outcome: u8, domain: &[u8]) -> AddCall {
        AddCall {
            kind,
            outcome,
            domain: domain.to_vec(),
        }
    }

    pub fn make(&self, book: &mut Book) -> Result<(), Refusal> {
        book.add(self.kind, self.outcome, &self.domain)
    }
}

impl AnswerCall {
    /// No records for a name, with just enough scratch.
    pub fn none(name: &[u8]) -> AnswerCall {
        AnswerCall {
            status: Status::None,
            scratch: 4096,
            name: name.to_vec(),
            bytes: Vec::new(),
        }
    }

    /// The answer as it is handed in.
    pub fn answer(&self) -> Answer<'_> {
        let (status, bytes) = (self.status, self.bytes.as_slice());
        Answer { status, bytes }
    }

    pub fn make(&self, book: &mut Book, scratch: &mut [u8]) -> Result<(), Refusal> {
        book.answer(&self.name, self.answer(), scratch)
    }
}
