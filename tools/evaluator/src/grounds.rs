//! What a verdict rests on: the record that applies, the walks, and the reasons
//! that steps a to e had. The evaluator fills this in as it goes.

use crate::domain::Domain;
use crate::message::Message;
use crate::policy::Policy;
use crate::verdict::{Alignment, DmarcResult};
use crate::walk::{Found, Walk};

/// What step a finds.
#[derive(Clone, Debug, PartialEq, Eq)]
pub enum Discovery {
    Applied(Found, AppliedBy),
    Nothing,
    Error,
}

/// Whose record applies: "the author's own; else the organizational domain's
/// ...; else the psd=y one".
#[derive(Clone, Copy, Debug, PartialEq, Eq)]
pub enum AppliedBy {
    Own,
    Organizational,
    PsdYes,
}

/// Why an identifier has its alignment.
#[derive(Clone, Debug, PartialEq, Eq)]
pub enum Reason {
    /// Step c was not reached.
    NotReached,
    NotPassing,
    TemporaryError,
    SameDomain,
    StrictMode,
    AuthorWalkError,
    WalkError(Walk),
    SameOrganizational(Walk),
    /// With its own organizational domain.
    OtherOrganizational(Walk, Domain),
}

/// A policy, and the tag that gives it.
#[derive(Clone, Copy, Debug, PartialEq, Eq)]
pub struct Choice {
    pub tag: PolicyTag,
    pub policy: Policy,
}

#[derive(Clone, Copy, Debug, PartialEq, Eq)]
pub enum PolicyTag {
    P,
    Sp,
    Np,
}

/// Where step e takes the policy from, before t=y drops it one step.
#[derive(Clone, Copy, Debug, PartialEq, Eq)]
pub enum PolicySource {
    /// Step e was not reached.
    NotReached,
    Known(Choice),
    /// Existence is not known, and the two policies differ.
    Unknown {
        exists: Choice,
        missing: Choice,
    },
}

/// Why the result is what it is.
#[derive(Clone, Copy, Debug, PartialEq, Eq)]
pub enum ResultReason {
    NoRecord,
    RecordNotKnown,
    NotUsable,
    SomeAligned,
    SomeUnknown,
    SomeTemporaryError,
    /// None is aligned, but the policy is unknown.
    PolicyUnknown,
    NoneAligned,
}

#[derive(Clone, Debug, PartialEq, Eq)]
pub struct Grounds {
    pub discovery: Discovery,
    /// The author's walk, as far as it went.
    pub author: Walk,
    /// Whether the author's walk went on to its end, unpaused.
    pub completed: bool,
    /// The author's organizational domain, if its walk was completed without an
    /// error.
    pub organizational: Option<Domain>,
    /// Whether the record is not usable, so that its policies read as none.
    pub read_as_none: bool,
    /// For each identifier.
    pub reasons: Vec<Reason>,
    pub source: PolicySource,
    pub result: ResultReason,
}

impl Grounds {
    /// Step a found the author's own record, and the walk is paused there.
    pub fn paused(message: &Message, own: Found) -> Grounds {
        let walk = Walk::paused(&own);
        let discovery = Discovery::Applied(own, AppliedBy::Own);
        let walked = Grounds::walked(message, discovery, walk, None);
        Grounds {
            completed: false,
            ..walked
        }
    }

    /// Step a went to the end of the author's walk.
    pub fn walked(
        message: &Message,
        discovery: Discovery,
        author: Walk,
        organizational: Option<Domain>,
    ) -> Grounds {
        let result = match discovery {
            // Until step b finds that it is.
            Discovery::Applied(..) => ResultReason::NotUsable,
            Discovery::Nothing => ResultReason::NoRecord,
            Discovery::Error => ResultReason::RecordNotKnown,
        };
        Grounds {
            discovery,
            author,
            completed: true,
            organizational,
            read_as_none: false,
            reasons: vec![Reason::NotReached; message.identifiers.len()],
            source: PolicySource::NotReached,
            result,
        }
    }

    /// The record that applies, if there is one and it is known.
    pub fn applied(&self) -> Option<&Found> {
        match &self.discovery {
            Discovery::Applied(found, _) => Some(found),
            Discovery::Nothing | Discovery::Error => None,
        }
    }

    /// The author's walk was completed.
    pub fn complete(&mut self, walk: Walk) {
        self.completed = true;
        self.organizational = walk.organizational_domain();
        self.author = walk;
    }

    /// The distinct walks: the author's, and those of the identifiers, "an equal
    /// domain being one walk".
    pub fn walks(&self) -> Vec<&Walk> {
        let mut walks = vec![&self.author];
        for walk in self.reasons.iter().filter_map(Reason::walk) {
            if walks.iter().all(|known| known.start != walk.start) {
                walks.push(walk);
            }
        }
        walks
    }
}

impl Reason {
    pub fn alignment(&self) -> Alignment {
        match self {
            Reason::NotReached => Alignment::NotJudged,
            // "Identifiers with outcome 0 or 2 are not aligned."
            Reason::NotPassing | Reason::TemporaryError => Alignment::NotAligned,
            Reason::SameDomain | Reason::SameOrganizational(_) => Alignment::Aligned,
            Reason::StrictMode | Reason::OtherOrganizational(..) => Alignment::NotAligned,
            Reason::AuthorWalkError | Reason::WalkError(_) => Alignment::Unknown,
        }
    }

    /// The identifier's walk, if it was walked.
    pub fn walk(&self) -> Option<&Walk> {
        match self {
            Reason::WalkError(walk)
            | Reason::SameOrganizational(walk)
            | Reason::OtherOrganizational(walk, _) => Some(walk),
            _ => None,
        }
    }
}

impl ResultReason {
    pub fn result(self) -> DmarcResult {
        match self {
            ResultReason::NoRecord => DmarcResult::None,
            ResultReason::NotUsable => DmarcResult::Permerror,
            ResultReason::SomeAligned => DmarcResult::Pass,
            ResultReason::NoneAligned => DmarcResult::Fail,
            ResultReason::RecordNotKnown
            | ResultReason::SomeUnknown
            | ResultReason::SomeTemporaryError
            | ResultReason::PolicyUnknown => DmarcResult::Temperror,
        }
    }
}

impl PolicyTag {
    pub fn word(self) -> &'static str {
        match self {
            PolicyTag::P => "p",
            PolicyTag::Sp => "sp",
            PolicyTag::Np => "np",
        }
    }
}
