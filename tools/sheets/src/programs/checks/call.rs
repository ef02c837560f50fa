//! One call of an address check, what it gives, and its line.

use std::fmt;

use crate::description::quoted;
use crate::programs::calls::AnswerCall;
use crate::programs::lent::{sums, FILL};
use evaluator::address::book::{AddressBook, AddressStep};
use evaluator::address::{Outcome, Verdict};
use evaluator::refusal::Refusal;

/// One call. Of an answer it has the size of the lent scratch.
#[derive(Clone, Debug, PartialEq, Eq)]
pub enum Call {
    Start(StartCall),
    Next,
    Answer(AnswerCall),
    Result,
}

/// What a check is started with.
#[derive(Clone, Debug, PartialEq, Eq)]
pub struct StartCall {
    pub policy: Vec<u8>,
    pub entry: Vec<u8>,
}

/// What a call gives.
#[derive(Clone, Debug, PartialEq, Eq)]
pub enum Told {
    Accepted,
    /// The name to ask.
    Ask(Vec<u8>),
    Verdict(Verdict),
    Refused(Refusal),
}

impl StartCall {
    pub fn new(policy: &[u8], entry: &[u8]) -> StartCall {
        StartCall {
            policy: policy.to_vec(),
            entry: entry.to_vec(),
        }
    }
}

impl Call {
    /// The word of the call.
    pub fn word(&self) -> &'static str {
        match self {
            Call::Start(_) => "start",
            Call::Next => "next",
            Call::Answer(_) => "answer",
            Call::Result => "result",
        }
    }

    /// How many octets are lent.
    pub fn lent(&self) -> usize {
        match self {
            Call::Answer(given) => usize::from(given.scratch),
            _ => 0,
        }
    }

    /// Makes the call on a book with this lent memory.
    pub fn make(&self, book: &mut AddressBook, lent: &mut [u8]) -> Told {
        let accepted = |()| Told::Accepted;
        match self {
            Call::Start(given) => Told::of(book.start(&given.policy, &given.entry), accepted),
            Call::Next => Told::of(book.next_step(), Told::step),
            Call::Answer(given) => {
                Told::of(book.answer(&given.name, given.answer(), lent), accepted)
            }
            Call::Result => Told::of(book.result(), Told::Verdict),
        }
    }

    /// Makes the call with lent memory filled with 255, and gives its line: its
    /// word, what it gives, and what the lent memory holds then.
    pub fn line(&self, book: &mut AddressBook) -> String {
        let mut lent = vec![FILL; self.lent()];
        let told = self.make(book, &mut lent);
        let lent = match self {
            Call::Answer(_) => format!(" scratch={}", sums(&lent)),
            _ => String::new(),
        };
        format!("{} {told}{lent}", self.word())
    }
}

impl fmt::Display for Call {
    /// The call with all that is handed in.
    fn fmt(&self, out: &mut fmt::Formatter<'_>) -> fmt::Result {
        out.write_str(self.word())?;
        match self {
            Call::Start(given) => {
                let (policy, entry) = (quoted(&given.policy), quoted(&given.entry));
                write!(out, " {policy} {entry}")
            }
            Call::Answer(given) => write!(out, " {given}"),
            Call::Next | Call::Result => Ok(()),
        }
    }
}

impl Told {
    /// What is told, or the refusal.
    pub fn of<T>(given: Result<T, Refusal>, told: impl FnOnce(T) -> Told) -> Told {
        given.map_or_else(Told::Refused, told)
    }

    pub fn step(step: AddressStep) -> Told {
        match step {
            AddressStep::Ask(asked) => Told::Ask(asked.name),
            AddressStep::Verdict(verdict) => Told::Verdict(verdict),
        }
    }
}

impl fmt::Display for Told {
    fn fmt(&self, out: &mut fmt::Formatter<'_>) -> fmt::Result {
        match self {
            Told::Accepted => out.write_str("accepted"),
            Told::Ask(name) => write!(out, "ask {}", String::from_utf8_lossy(name)),
            Told::Verdict(verdict) => out.write_str(&verdict_words(verdict)),
            Told::Refused(refusal) => write!(out, "{refusal}"),
        }
    }
}

/// A verdict; of one that replaces the address also the place.
fn verdict_words(verdict: &Verdict) -> String {
    let place = match verdict.outcome {
        Outcome::Replaced { begin, length } => format!(" begin={begin} length={length}"),
        _ => String::new(),
    };
    let word = verdict.outcome.word().replace(' ', "-");
    format!("verdict {word}{place} count={}", verdict.asked)
}
