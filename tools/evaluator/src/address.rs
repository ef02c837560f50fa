//! Ask 11 of document 02: whether an address outside agreed to take reports
//! (RFC 9990, section 4).

pub mod book;
mod confirmation;
pub mod entry;

use crate::domain::{Domain, MOST_OCTETS};
use crate::refusal::Refusal;
use crate::txt::Answer;
use crate::walk::{AskedName, Asker, NoAnswerYet, Walk};

pub use confirmation::Confirmation;

/// What stands between policy domain and host: "as
/// `blue.example.com._report._dmarc.red.example.net`".
pub const BETWEEN: &[u8] = b"._report._dmarc.";
/// The number of the policy domain's walk, of the host's, and that under which the
/// confirming name is asked (reading 178).
pub const POLICY_WALK: usize = 0;
pub const HOST_WALK: usize = 1;
pub const CONFIRMING: usize = 2;
/// "at most 17 in all"
pub const MOST_NAMES: usize = 17;

/// What is checked: the policy domain and the entry's host, "the first host".
#[derive(Clone, Debug, PartialEq, Eq)]
pub struct Address {
    pub policy: Domain,
    pub host: Domain,
}

/// What a check comes to, what is not known first.
#[derive(Clone, Copy, Debug, PartialEq, Eq)]
pub enum Outcome {
    NotKnown,
    /// "a plain no"
    No,
    Inside,
    /// It agreed, and the address stays as it is.
    Confirmed,
    /// It agreed, and this part of the scratch takes the address's place.
    Replaced {
        begin: usize,
        length: usize,
    },
}

/// The outcome, and how many names were asked for it.
#[derive(Clone, Copy, Debug, PartialEq, Eq)]
pub struct Verdict {
    pub outcome: Outcome,
    pub asked: usize,
}

/// What an outcome rests on, with the walks that were made for it.
#[derive(Clone, Debug, PartialEq, Eq)]
pub enum Reason {
    SameDomain,
    /// The policy domain's walk ended in an error.
    PolicyWalkError(Walk),
    /// The host's walk did.
    HostWalkError {
        policy: Walk,
        host: Walk,
    },
    SameOrganizational {
        policy: Walk,
        host: Walk,
    },
    /// Two organizational domains, and what the confirming name had.
    Outside {
        policy: Walk,
        host: Walk,
        confirmation: Confirmation,
    },
}

/// How far a check comes over the given answers.
#[derive(Clone, Debug, PartialEq, Eq)]
pub enum Progress {
    /// The first name without an answer.
    Ask(AskedName),
    Verdict(Verdict),
}

/// The names asked, each once, where it first comes (one without an answer is the
/// last), and what came of them.
#[derive(Clone, Debug, PartialEq, Eq)]
pub struct Check {
    pub names: Vec<AskedName>,
    pub progress: Progress,
    /// What the verdict rests on; nothing before there is one.
    pub reason: Option<Reason>,
}

impl Address {
    /// "Refusals: 11 a bad policy domain, then 23 an entry with a comma or not a
    /// valid `mailto:` with a domain after its last `@`."
    pub fn read(policy: &[u8], entry: &[u8]) -> Result<Address, Refusal> {
        Ok(Address {
            policy: Domain::read(policy).map_err(|_| Refusal::new(11, 0))?,
            host: entry::host(entry).map_err(|_| Refusal::new(23, 0))?,
        })
    }

    /// The whole confirming name, however long.
    pub fn confirming_name(&self) -> Vec<u8> {
        [self.policy.octets(), BETWEEN, self.host.octets()].concat()
    }
}

/// Checks an address over the answers: a name to its answer, or nothing if it has
/// no answer yet.
pub fn check<'a>(address: &Address, answers: impl Fn(&[u8]) -> Option<Answer<'a>>) -> Check {
    let mut asker = Asker::new(&answers);
    let (progress, reason) = match judge(&mut asker, address) {
        Ok(reason) => {
            let verdict = Verdict {
                outcome: reason.outcome(),
                asked: asker.names.len(),
            };
            (Progress::Verdict(verdict), Some(reason))
        }
        Err(NoAnswerYet(name)) => (Progress::Ask(name), None),
    };
    Check {
        names: asker.names,
        progress,
        reason,
    }
}

/// "Inside means equal domains, with nothing asked, or equal organizational domains
/// by the walks of 01, policy domain first; an error in either gives not known, and
/// after it nothing more is asked."
fn judge(asker: &mut Asker, address: &Address) -> Result<Reason, NoAnswerYet> {
    if address.policy == address.host {
        return Ok(Reason::SameDomain);
    }
    let policy = asker.walk(POLICY_WALK, &address.policy)?;
    if policy.error {
        return Ok(Reason::PolicyWalkError(policy));
    }
    let host = asker.walk(HOST_WALK, &address.host)?;
    if host.error {
        return Ok(Reason::HostWalkError { policy, host });
    }
    if policy.organizational_domain() == host.organizational_domain() {
        return Ok(Reason::SameOrganizational { policy, host });
    }
    let confirmation = confirm(asker, address)?;
    Ok(Reason::Outside {
        policy,
        host,
        confirmation,
    })
}

/// "the confirming name last and only for an address that is not inside"; "A
/// confirming name over 253 octets is not asked and counts as none."
fn confirm(asker: &mut Asker, address: &Address) -> Result<Confirmation, NoAnswerYet> {
    let name = address.confirming_name();
    if name.len() > MOST_OCTETS {
        return Ok(Confirmation::TooLong(name.len()));
    }
    let asked = AskedName {
        name,
        walk: CONFIRMING,
        place: 0,
    };
    let answer = asker.ask(asked)?;
    Ok(Confirmation::of(&address.host, answer))
}

impl Reason {
    pub fn outcome(&self) -> Outcome {
        match self {
            Reason::SameDomain | Reason::SameOrganizational { .. } => Outcome::Inside,
            Reason::PolicyWalkError(_) | Reason::HostWalkError { .. } => Outcome::NotKnown,
            Reason::Outside { confirmation, .. } => confirmation.outcome(),
        }
    }
}

impl Outcome {
    pub fn number(self) -> u8 {
        match self {
            Outcome::NotKnown => 0,
            Outcome::No => 1,
            Outcome::Inside => 2,
            Outcome::Confirmed => 3,
            Outcome::Replaced { .. } => 4,
        }
    }

    pub fn word(self) -> &'static str {
        match self {
            Outcome::NotKnown => "not known",
            Outcome::No => "no",
            Outcome::Inside => "inside",
            Outcome::Confirmed => "confirmed",
            Outcome::Replaced { .. } => "replaced",
        }
    }
}
