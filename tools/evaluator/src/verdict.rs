//! The verdict and the words of its parts.

use crate::policy::Policy;

#[derive(Clone, Copy, Debug, PartialEq, Eq)]
pub enum DmarcResult {
    None,
    Pass,
    Fail,
    Temperror,
    Permerror,
}

/// The policy of a verdict: one of the three, or "unknown".
#[derive(Clone, Copy, Debug, PartialEq, Eq)]
pub enum AppliedPolicy {
    Known(Policy),
    Unknown,
}

#[derive(Clone, Copy, Debug, PartialEq, Eq)]
pub enum Disposition {
    None,
    Quarantine,
    Reject,
    Defer,
}

#[derive(Clone, Copy, Debug, PartialEq, Eq)]
pub enum Alignment {
    NotJudged,
    Aligned,
    NotAligned,
    Unknown,
}

/// "result, domain of the applied record, policy, disposition, alignment of
/// each identifier, count asked"
#[derive(Clone, Debug, PartialEq, Eq)]
pub struct Verdict {
    pub result: DmarcResult,
    /// The applied record's domain in lower case, empty where there is none.
    pub domain: Vec<u8>,
    pub policy: AppliedPolicy,
    pub disposition: Disposition,
    pub alignments: Vec<Alignment>,
    pub asked: usize,
}

impl DmarcResult {
    /// The paper's word.
    pub fn word(self) -> &'static str {
        match self {
            DmarcResult::None => "none",
            DmarcResult::Pass => "pass",
            DmarcResult::Fail => "fail",
            DmarcResult::Temperror => "temperror",
            DmarcResult::Permerror => "permerror",
        }
    }

    /// Its number where a list of rows takes it.
    pub const fn number(self) -> u8 {
        match self {
            DmarcResult::None => 0,
            DmarcResult::Pass => 1,
            DmarcResult::Fail => 2,
            DmarcResult::Temperror => 3,
            DmarcResult::Permerror => 4,
        }
    }
}

impl AppliedPolicy {
    pub fn word(self) -> &'static str {
        match self {
            AppliedPolicy::Known(policy) => policy.word(),
            AppliedPolicy::Unknown => "unknown",
        }
    }
}

impl Disposition {
    pub fn word(self) -> &'static str {
        match self {
            Disposition::None => "none",
            Disposition::Quarantine => "quarantine",
            Disposition::Reject => "reject",
            Disposition::Defer => "defer",
        }
    }

    /// Its number in a row; 3, to defer, stands in none.
    pub const fn number(self) -> u8 {
        match self {
            Disposition::None => 0,
            Disposition::Quarantine => 1,
            Disposition::Reject => 2,
            Disposition::Defer => 3,
        }
    }
}

impl Alignment {
    pub fn word(self) -> &'static str {
        match self {
            Alignment::NotJudged => "not judged",
            Alignment::Aligned => "aligned",
            Alignment::NotAligned => "not aligned",
            Alignment::Unknown => "unknown",
        }
    }
}
