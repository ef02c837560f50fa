//! Demand 3's book: what a list of calls gives back and leaves in lent memory.

use crate::asking::Asking;
use crate::evaluate::{evaluate, Evaluation, Progress};
use crate::message::Message;
use crate::refusal::Refusal;
use crate::report;
use crate::rows::Finding;
use crate::txt::Answer;
use crate::verdict::Verdict;
use crate::walk::AskedName;

pub use crate::asking::SCRATCH_OCTETS;

/// "It holds message, accepted answers and the name now asked; the last two
/// start empty." Without a message nothing was opened.
#[derive(Clone, Debug, Default, PartialEq, Eq)]
pub struct Book {
    message: Option<Message>,
    asking: Asking,
    /// "the first name or the verdict has been handed out"
    closed: bool,
}

/// "The next step is one of three": the third is a refusal.
#[derive(Clone, Debug, PartialEq, Eq)]
pub enum Step {
    Ask(AskedName),
    Verdict(Verdict),
}

impl Book {
    /// Opens a message afresh; a refused opening leaves the book as it stood.
    pub fn open(&mut self, author: &[u8], existence: u8, support: u8) -> Result<(), Refusal> {
        *self = Book {
            message: Some(Message::open(author, existence, support)?),
            ..Book::default()
        };
        Ok(())
    }

    /// Adds an identifier: "17 too late, or nothing opened, before those".
    pub fn add(&mut self, kind: u8, outcome: u8, domain: &[u8]) -> Result<(), Refusal> {
        let message = self.message.as_mut().filter(|_| !self.closed);
        message
            .ok_or(Refusal::new(17, 0))?
            .add(kind, outcome, domain)
    }

    /// "separate walks run over its answers to the first name without one, which
    /// is given and now asked; ... if none lacks one, the verdict"
    pub fn next_step(&mut self) -> Result<Step, Refusal> {
        let evaluation = self.evaluation().ok_or(Refusal::new(7, 0))?;
        self.closed = true;
        Ok(match evaluation.progress {
            Progress::Ask(asked) => {
                self.asking.ask(&asked.name);
                Step::Ask(asked)
            }
            Progress::Verdict(verdict) => Step::Verdict(verdict),
        })
    }

    /// "Answer: 5, 6, 10; else kept, scratch as above, no name asked."
    pub fn answer(
        &mut self,
        name: &[u8],
        answer: Answer,
        scratch: &mut [u8],
    ) -> Result<(), Refusal> {
        self.asking.answer(name, answer, scratch)
    }

    /// "Result: 7 while a name lacks an answer, else the verdict."
    pub fn result(&self) -> Result<Verdict, Refusal> {
        match self.evaluation().map(|evaluation| evaluation.progress) {
            Some(Progress::Verdict(verdict)) => Ok(verdict),
            _ => Err(Refusal::new(7, 0)),
        }
    }

    /// "Field: 7, 9, 10, else its octets." Gives the number of octets written.
    pub fn field(&self, out: &mut [u8]) -> Result<usize, Refusal> {
        let verdict = self.result()?;
        let message = self.message.as_ref().ok_or(Refusal::new(7, 0))?;
        report::lend(&report::field_text(message, &verdict)?, out)
    }

    /// What would be entered in a day's rows: 7 while a name lacks an answer.
    pub fn finding(&self) -> Result<Finding, Refusal> {
        let verdict = self.result()?;
        let message = self.message.as_ref().ok_or(Refusal::new(7, 0))?;
        Ok(Finding::of(message, &verdict))
    }

    /// The names asked so far, in order, the one now lacking an answer included.
    pub fn names(&self) -> Vec<AskedName> {
        self.evaluation()
            .map_or(Vec::new(), |evaluation| evaluation.names)
    }

    /// The name now asked.
    pub fn now_asked(&self) -> Option<&[u8]> {
        self.asking.now_asked()
    }

    fn evaluation(&self) -> Option<Evaluation> {
        let message = self.message.as_ref()?;
        Some(evaluate(message, |name| self.asking.accepted(name)))
    }
}
