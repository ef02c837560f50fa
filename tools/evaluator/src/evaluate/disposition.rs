//! Steps b, e and f: a record's policies, the one that holds, and what is done.

use crate::grounds::{Choice, PolicySource, PolicyTag};
use crate::message::Existence;
use crate::policy::{Policy, Settings, Usable};
use crate::verdict::{AppliedPolicy, Disposition, DmarcResult};

/// The three policies of a record.
pub struct Policies {
    usable: Usable,
    /// Whether they read as none because the record is not usable.
    pub read_as_none: bool,
}

/// Step b. Nothing means permerror.
pub fn policies(settings: &Settings) -> Option<Policies> {
    if let Some(usable) = settings.usable() {
        return Some(Policies {
            usable,
            read_as_none: false,
        });
    }
    // "Not usable but `rua` has a valid entry: all three policies read as none"
    settings.rua_valid.then_some(Policies {
        usable: Usable {
            p: Policy::None,
            sp: Some(Policy::None),
            np: Some(Policy::None),
        },
        read_as_none: true,
    })
}

/// Step e: the tag that gives the policy, before the last step.
pub fn policy_source(policies: &Policies, own: bool, existence: Existence) -> PolicySource {
    let choice = |tag, policy| Choice { tag, policy };
    let Usable { p, sp, np } = policies.usable;
    let p = choice(PolicyTag::P, p);
    let sp = sp.map(|policy| choice(PolicyTag::Sp, policy));
    let np = np.map(|policy| choice(PolicyTag::Np, policy));
    let exists = sp.unwrap_or(p);
    let missing = np.unwrap_or(exists);
    match existence {
        _ if own => PolicySource::Known(p),
        Existence::Yes => PolicySource::Known(exists),
        Existence::No => PolicySource::Known(missing),
        // "gives that policy where both agree before the step below"
        Existence::NotKnown if exists.policy == missing.policy => PolicySource::Known(exists),
        Existence::NotKnown => PolicySource::Unknown { exists, missing },
    }
}

/// "reject to quarantine, quarantine to none, none to none"
const STEP_DOWN: [(Policy, Policy); 3] = [
    (Policy::Reject, Policy::Quarantine),
    (Policy::Quarantine, Policy::None),
    (Policy::None, Policy::None),
];

fn step_down(policy: Policy) -> Policy {
    let row = STEP_DOWN.iter().find(|(from, _)| *from == policy);
    row.map_or(Policy::None, |(_, to)| *to)
}

/// "With t=y the policy drops one step".
pub fn policy(source: PolicySource, testing: bool) -> AppliedPolicy {
    match source {
        PolicySource::Known(choice) if testing => AppliedPolicy::Known(step_down(choice.policy)),
        PolicySource::Known(choice) => AppliedPolicy::Known(choice.policy),
        PolicySource::Unknown { .. } | PolicySource::NotReached => AppliedPolicy::Unknown,
    }
}

/// Step f.
pub fn disposition(result: DmarcResult, policy: AppliedPolicy, support: bool) -> Disposition {
    match (result, policy) {
        (DmarcResult::Pass | DmarcResult::None | DmarcResult::Permerror, _) => Disposition::None,
        (DmarcResult::Temperror, _) => Disposition::Defer,
        (DmarcResult::Fail, AppliedPolicy::Known(Policy::None)) => Disposition::None,
        (DmarcResult::Fail, AppliedPolicy::Known(Policy::Quarantine)) => Disposition::Quarantine,
        // "reject without support gives quarantine"
        (DmarcResult::Fail, AppliedPolicy::Known(Policy::Reject)) if support => Disposition::Reject,
        (DmarcResult::Fail, AppliedPolicy::Known(Policy::Reject)) => Disposition::Quarantine,
        // Step e turns such a fail into temperror before it comes here.
        (DmarcResult::Fail, AppliedPolicy::Unknown) => Disposition::Defer,
    }
}
