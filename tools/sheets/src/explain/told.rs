//! What an explanation is told from: the sheet, and its verdict with grounds.

use evaluator::domain::Domain;
use evaluator::grounds::{Grounds, ResultReason};
use evaluator::message::Message;
use evaluator::sheet::{Reasoned, Sheet};
use evaluator::txt::Status;
use evaluator::verdict::Verdict;
use evaluator::walk::{AskedName, Walk};

#[derive(Clone, Copy)]
pub struct Told<'a> {
    pub sheet: &'a Sheet<'a>,
    pub message: &'a Message,
    pub names: &'a [AskedName],
    pub verdict: &'a Verdict,
    pub grounds: &'a Grounds,
}

/// What a sheet has for an asked name.
#[derive(Clone, Copy, Debug, PartialEq, Eq)]
pub enum AnswerKind {
    Records,
    None,
    Error,
    /// No answer, which is read as an error.
    Missing,
}

impl<'a> Told<'a> {
    pub fn new(sheet: &'a Sheet<'a>, reasoned: &'a Reasoned) -> Told<'a> {
        Told {
            sheet,
            message: &reasoned.message,
            names: &reasoned.names,
            verdict: &reasoned.verdict,
            grounds: &reasoned.grounds,
        }
    }

    /// What the sheet has for a name; "zero bytes is the same as none".
    pub fn answer_kind(&self, name: &[u8]) -> AnswerKind {
        let answer = self.sheet.given(name).map(|given| given.answer);
        match answer.map(|answer| (answer.status, answer.bytes)) {
            None => AnswerKind::Missing,
            Some((Status::Error, _)) => AnswerKind::Error,
            Some((Status::None, _) | (Status::Records, [])) => AnswerKind::None,
            Some((Status::Records, _)) => AnswerKind::Records,
        }
    }

    /// How a walk with an error ended: by an answer of error, or for want of one.
    pub fn ended_in_error(&self, walk: &Walk) -> String {
        let last = walk.last();
        let name = last.as_ref().and_then(Domain::asked_name);
        let why = match self.answer_kind(&name.unwrap_or_default()) {
            AnswerKind::Missing => "no answer is given for it",
            _ => "its lookup failed",
        };
        let last = last.map(|target| shown(&target)).unwrap_or_default();
        format!("ended in an error at {last} ({why})")
    }

    /// Why steps b to e were not reached.
    pub fn not_judged(&self) -> &'static str {
        match self.grounds.result {
            ResultReason::NoRecord => "no policy record applies",
            ResultReason::NotUsable => "the policy record is not usable",
            _ => "the policy record is not known",
        }
    }
}

impl AnswerKind {
    pub fn word(self) -> &'static str {
        match self {
            AnswerKind::Records => "records",
            AnswerKind::None => "none",
            AnswerKind::Error => "error",
            AnswerKind::Missing => "missing",
        }
    }
}

/// Octets that are all in ASCII, as they stand.
pub fn plain(octets: &[u8]) -> String {
    String::from_utf8_lossy(octets).into_owned()
}

pub fn shown(domain: &Domain) -> String {
    plain(domain.octets())
}
