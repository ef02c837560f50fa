//! One case.

use evaluator::report::FileName;
use evaluator::txt::Status;

/// One case.
#[derive(Clone, Debug, PartialEq, Eq)]
pub enum Case {
    Policy(Vec<u8>),
    Answer(AnswerCase),
    FileName(NameCase),
    Field(FieldCase),
    /// A domain that keeps the rule.
    Labels(Vec<u8>),
}

/// An answer for the name now asked, and the size of the lent scratch.
#[derive(Clone, Debug, PartialEq, Eq)]
pub struct AnswerCase {
    pub status: Status,
    pub scratch: u16,
    pub bytes: Vec<u8>,
}

/// A report file name, and the size of the lent output.
#[derive(Clone, Debug, PartialEq, Eq)]
pub struct NameCase {
    pub receiver: Vec<u8>,
    pub policy_domain: Vec<u8>,
    pub begin: u64,
    pub end: u64,
    /// 0: no id, and the octets of the id are not read.
    pub named: u8,
    pub id: Vec<u8>,
    pub size: u16,
}

/// What is said of one method's identifiers.
#[derive(Clone, Copy, Debug, PartialEq, Eq)]
pub struct Method {
    pub given: bool,
    pub aligned: bool,
}

/// An Identity-Alignment field, and the size of the lent output.
#[derive(Clone, Copy, Debug, PartialEq, Eq)]
pub struct FieldCase {
    pub dkim: Method,
    pub spf: Method,
    pub size: u8,
}

impl NameCase {
    /// What the file is named after.
    pub fn parts(&self) -> FileName<'_> {
        FileName {
            receiver: &self.receiver,
            policy_domain: &self.policy_domain,
            begin: self.begin,
            end: self.end,
            id: (self.named != 0).then_some(&self.id),
        }
    }
}

impl FieldCase {
    /// Kinds and outcomes of identifiers of the author's own domain: a pass is
    /// aligned, no pass is not.
    pub fn identifiers(&self) -> Vec<(u8, u8)> {
        let of_kind =
            |kind: u8, method: Method| method.given.then_some((kind, u8::from(method.aligned)));
        let both = [of_kind(1, self.dkim), of_kind(0, self.spf)];
        both.into_iter().flatten().collect()
    }
}
