//! Why an address check comes to its outcome, a sentence each.

use super::{plain, Told};
use crate::policy_words::PolicyRecord;
use evaluator::address::{Address, Confirmation, Reason};
use evaluator::domain::{Domain, MOST_OCTETS};
use evaluator::policy::Psd;
use evaluator::txt::given_texts;
use evaluator::walk::Walk;

/// What decided, and what it rests on.
pub struct Why {
    /// The sentence of the outcome.
    pub said: String,
    /// The organizational domains of the policy domain and of the host, where they
    /// are known.
    pub organizational: [Option<Domain>; 2],
    pub details: Vec<String>,
}

pub fn shown(domain: &Domain) -> String {
    plain(domain.octets())
}

/// Why a check that has a verdict comes to it.
pub fn why(told: &Told) -> Option<Why> {
    let (address, check) = told.started.as_ref()?;
    let reason = check.reason.as_ref()?;
    Some(match reason {
        Reason::SameDomain => Why {
            said: "the host is the policy domain itself, so nothing is asked".to_string(),
            organizational: [None, None],
            details: Vec::new(),
        },
        Reason::PolicyWalkError(walk) => Why {
            said: ended_in_error(told, "the policy domain", walk),
            organizational: [None, None],
            details: Vec::new(),
        },
        Reason::HostWalkError { policy, host } => Why {
            said: ended_in_error(told, "the host", host),
            organizational: [policy.organizational_domain(), None],
            details: vec![by_walk("the policy domain", policy)],
        },
        Reason::SameOrganizational { policy, host } => Why {
            said: "the policy domain and the host have one organizational domain".to_string(),
            organizational: both(policy, host),
            details: walked(policy, host),
        },
        Reason::Outside {
            policy,
            host,
            confirmation,
        } => Why {
            said: confirmed(told, address, confirmation),
            organizational: both(policy, host),
            details: [walked(policy, host), other_texts(told, address)].concat(),
        },
    })
}

fn both(policy: &Walk, host: &Walk) -> [Option<Domain>; 2] {
    [policy, host].map(Walk::organizational_domain)
}

fn walked(policy: &Walk, host: &Walk) -> Vec<String> {
    vec![
        by_walk("the policy domain", policy),
        by_walk("the host", host),
    ]
}

fn ended_in_error(told: &Told, whose: &str, walk: &Walk) -> String {
    let last = walk.last();
    let name = last.as_ref().and_then(Domain::asked_name);
    let why = failed(told, &name.unwrap_or_default());
    let last = last.map(|target| shown(&target)).unwrap_or_default();
    format!("the walk of {whose} ended in an error at {last} ({why}), and nothing more is asked")
}

/// An error that was answered is told from a name without an answer.
fn failed(told: &Told, name: &[u8]) -> &'static str {
    match told.handed.given(name) {
        Some(_) => "its lookup failed",
        None => "no answer is given for it",
    }
}

/// The organizational domain that a walk gives, and by which record.
fn by_walk(whose: &str, walk: &Walk) -> String {
    let organizational = walk.organizational_domain();
    let domain = organizational.as_ref().map(shown).unwrap_or_default();
    let last = walk.found.last();
    let at = last.map(|found| shown(&found.domain)).unwrap_or_default();
    let why = match last.map(|found| found.settings.psd) {
        None => "no record was found, so it is the domain itself".to_string(),
        Some(Psd::No) => "its record has psd=n".to_string(),
        Some(Psd::Yes) if at != domain => {
            format!("one label more than {at}, whose record has psd=y")
        }
        Some(_) => "the shortest domain with a record".to_string(),
    };
    format!("organizational domain of {whose}: {domain} ({why})")
}

/// What the confirming name decided. Records are numbered from 1 here.
fn confirmed(told: &Told, address: &Address, confirmation: &Confirmation) -> String {
    let (host, name) = (shown(&address.host), address.confirming_name());
    let (why, name) = (failed(told, &name), plain(&name));
    match confirmation {
        Confirmation::TooLong(octets) => format!(
            "{name} has {octets} octets, and {MOST_OCTETS} are the most, so it is not asked and \
             counts as none"
        ),
        Confirmation::Error => format!("an error at {name} ({why})"),
        Confirmation::NoRecord => format!("{name} has no policy record"),
        Confirmation::Agreed { record } => format!(
            "record {} at {name} is a policy record, and none there names an address in rua",
            record + 1
        ),
        Confirmation::Replaced { record, .. } => format!(
            "record {} at {name} names addresses in rua, and {host} is the host of each",
            record + 1
        ),
        Confirmation::OtherHost {
            record,
            entry,
            host: other,
        } => format!(
            "record {} at {name} names the host {} in entry {entry} of rua, and not {host}",
            record + 1,
            shown(other)
        ),
    }
}

/// The texts at the confirming name that are no policy records.
fn other_texts(told: &Told, address: &Address) -> Vec<String> {
    let answer = told.handed.answer(&address.confirming_name());
    let texts = answer.map(given_texts).unwrap_or_default();
    let other = |(number, text): (usize, &Vec<u8>)| {
        let why = PolicyRecord::read(text).err()?;
        Some(format!("record {number} is no policy record: {why}"))
    };
    (1..).zip(&texts).filter_map(other).collect()
}
