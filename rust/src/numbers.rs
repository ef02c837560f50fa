//! What the numbers of the interface mean.

/// Whether the author domain exists in the DNS.
#[derive(Clone, Copy, Debug, PartialEq, Eq, Hash)]
pub enum Existence {
    /// It does not.
    Missing,
    /// It does.
    Exists,
    /// It is not known.
    NotKnown,
}

/// The kind of an identifier.
#[derive(Clone, Copy, Debug, PartialEq, Eq, Hash)]
pub enum Kind {
    /// Of SPF: at most one of a message.
    Spf,
    /// Of a DKIM signature.
    Dkim,
}

/// The outcome of SPF or of a DKIM signature.
#[derive(Clone, Copy, Debug, PartialEq, Eq, Hash)]
pub enum Outcome {
    /// Neither of the others: fail, softfail, neutral, none, permerror.
    NotPassing,
    /// It passes.
    Pass,
    /// It could not be settled now.
    TemporaryError,
}

/// The result of an evaluation.
#[derive(Clone, Copy, Debug, PartialEq, Eq, Hash)]
pub enum DmarcResult {
    /// No policy record applies.
    None,
    /// An identifier is aligned.
    Pass,
    /// None is aligned.
    Fail,
    /// It could not be settled now.
    Temperror,
    /// The policy record is not usable.
    Permerror,
}

/// The policy of a verdict.
#[derive(Clone, Copy, Debug, PartialEq, Eq, Hash)]
pub enum AppliedPolicy {
    /// None.
    None,
    /// Quarantine.
    Quarantine,
    /// Reject.
    Reject,
    /// It is not known.
    Unknown,
}

/// What to do with the message.
#[derive(Clone, Copy, Debug, PartialEq, Eq, Hash)]
pub enum Disposition {
    /// Nothing for DMARC's sake.
    None,
    /// Treat it as suspicious.
    Quarantine,
    /// Reject it.
    Reject,
    /// Try again later.
    Defer,
}

/// How an identifier's domain stands to the author's.
#[derive(Clone, Copy, Debug, PartialEq, Eq, Hash)]
pub enum Alignment {
    /// The result did not come to it.
    NotJudged,
    /// Aligned.
    Aligned,
    /// Not aligned.
    NotAligned,
    /// A lookup failed on the way.
    Unknown,
}

impl Kind {
    /// The kind of a number, which is one of two.
    pub(crate) fn of(number: u8) -> Kind {
        listed(&[Kind::Spf, Kind::Dkim], number, Kind::Spf)
    }
}

impl Outcome {
    const ALL: [Outcome; 3] = [Outcome::NotPassing, Outcome::Pass, Outcome::TemporaryError];

    pub(crate) fn of(number: u8) -> Outcome {
        listed(&Self::ALL, number, Outcome::TemporaryError)
    }
}

impl DmarcResult {
    const ALL: [DmarcResult; 5] = [
        DmarcResult::None,
        DmarcResult::Pass,
        DmarcResult::Fail,
        DmarcResult::Temperror,
        DmarcResult::Permerror,
    ];

    /// The result of a number, which is one of five.
    pub(crate) fn of(number: u8) -> DmarcResult {
        listed(&Self::ALL, number, DmarcResult::Temperror)
    }

    /// Its word, as `pass`.
    pub fn word(self) -> &'static str {
        ["none", "pass", "fail", "temperror", "permerror"][self as usize]
    }
}

impl AppliedPolicy {
    const ALL: [AppliedPolicy; 4] = [
        AppliedPolicy::None,
        AppliedPolicy::Quarantine,
        AppliedPolicy::Reject,
        AppliedPolicy::Unknown,
    ];

    pub(crate) fn of(number: u8) -> AppliedPolicy {
        listed(&Self::ALL, number, AppliedPolicy::Unknown)
    }

    /// Its word, as `reject`.
    pub fn word(self) -> &'static str {
        ["none", "quarantine", "reject", "unknown"][self as usize]
    }
}

impl Disposition {
    const ALL: [Disposition; 4] = [
        Disposition::None,
        Disposition::Quarantine,
        Disposition::Reject,
        Disposition::Defer,
    ];

    pub(crate) fn of(number: u8) -> Disposition {
        listed(&Self::ALL, number, Disposition::Defer)
    }

    /// Its word, as `quarantine`.
    pub fn word(self) -> &'static str {
        ["none", "quarantine", "reject", "defer"][self as usize]
    }
}

impl Alignment {
    const ALL: [Alignment; 4] = [
        Alignment::NotJudged,
        Alignment::Aligned,
        Alignment::NotAligned,
        Alignment::Unknown,
    ];

    /// The alignment of an identifier, by its index, in two bits each.
    pub(crate) fn at(alignments: usize, index: usize) -> Alignment {
        let number = alignments.checked_shr(2 * index as u32).unwrap_or(0) & 3;
        Self::ALL[number]
    }

    /// Its words, as `not aligned`.
    pub fn words(self) -> &'static str {
        ["not judged", "aligned", "not aligned", "unknown"][self as usize]
    }
}

/// What a number means. A number that is not listed comes from no state that the
/// calls gave; it reads as what settles nothing.
fn listed<T: Copy>(all: &[T], number: u8, other: T) -> T {
    all.get(usize::from(number)).copied().unwrap_or(other)
}
