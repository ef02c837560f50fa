//! The calls of a check, by whatever code has them, made over answers that were
//! handed over.

use super::AddressHanded;
use evaluator::address::book::{AddressBook, AddressStep};
use evaluator::address::{Outcome, Verdict, MOST_NAMES};
use evaluator::book::SCRATCH_OCTETS;
use evaluator::refusal::Refusal;
use evaluator::txt::Answer;

pub trait Calls {
    fn start(&mut self, policy: &[u8], entry: &[u8]) -> Result<(), Refusal>;
    fn next_step(&mut self) -> Result<Step, Refusal>;
    fn answer(&mut self, name: &[u8], answer: Answer, scratch: &mut [u8]) -> Result<(), Refusal>;
}

/// The next step; the third is a refusal.
#[derive(Clone, Debug, PartialEq, Eq)]
pub enum Step {
    Ask(Vec<u8>),
    Verdict(Verdict),
}

/// How far the calls came.
#[derive(Clone, Debug, PartialEq, Eq)]
pub enum Came {
    /// The start was refused, or the answer of a name.
    Refused(Refusal, Option<Vec<u8>>),
    /// This name has no answer yet.
    Next(Vec<u8>),
    Verdict(Verdict),
}

/// What the calls gave.
#[derive(Clone, Debug, PartialEq, Eq)]
pub struct Ran {
    /// The names asked, in order.
    pub names: Vec<Vec<u8>>,
    pub came: Came,
    /// The text that takes the address's place; empty where none does.
    pub text: Vec<u8>,
}

impl Calls for AddressBook {
    fn start(&mut self, policy: &[u8], entry: &[u8]) -> Result<(), Refusal> {
        AddressBook::start(self, policy, entry)
    }

    fn next_step(&mut self) -> Result<Step, Refusal> {
        Ok(match AddressBook::next_step(self)? {
            AddressStep::Ask(asked) => Step::Ask(asked.name),
            AddressStep::Verdict(verdict) => Step::Verdict(verdict),
        })
    }

    fn answer(&mut self, name: &[u8], answer: Answer, scratch: &mut [u8]) -> Result<(), Refusal> {
        AddressBook::answer(self, name, answer, scratch)
    }
}

/// Makes the calls of a check up to its verdict, a refusal, or a name without an
/// answer.
pub fn run(calls: &mut impl Calls, handed: &AddressHanded) -> Ran {
    let (mut names, mut scratch) = (Vec::new(), vec![0; SCRATCH_OCTETS]);
    let came = match calls.start(&handed.policy, &handed.entry) {
        Ok(()) => came(calls, handed, &mut names, &mut scratch),
        Err(refusal) => Came::Refused(refusal, None),
    };
    let text = replacing(&came, &scratch);
    Ran { names, came, text }
}

/// The names are gathered on the way. More than any check has are not answered.
fn came(
    calls: &mut impl Calls,
    handed: &AddressHanded,
    names: &mut Vec<Vec<u8>>,
    scratch: &mut [u8],
) -> Came {
    loop {
        let name = match calls.next_step() {
            Ok(Step::Ask(name)) => name,
            Ok(Step::Verdict(verdict)) => return Came::Verdict(verdict),
            Err(refusal) => return Came::Refused(refusal, None),
        };
        names.push(name.clone());
        let answer = handed.answer(&name);
        let Some(answer) = answer.filter(|_| names.len() <= MOST_NAMES) else {
            return Came::Next(name);
        };
        if let Err(refusal) = calls.answer(&name, answer, scratch) {
            return Came::Refused(refusal, Some(name));
        }
    }
}

/// The part of the scratch, as the last answer left it, that takes the address's
/// place.
fn replacing(came: &Came, scratch: &[u8]) -> Vec<u8> {
    let Came::Verdict(verdict) = came else {
        return Vec::new();
    };
    let part = match verdict.outcome {
        Outcome::Replaced { begin, length } => scratch.get(begin..begin.saturating_add(length)),
        _ => None,
    };
    part.unwrap_or_default().to_vec()
}
