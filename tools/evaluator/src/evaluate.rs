//! Steps a to f as separate walks: "a to f afresh over given answers, each walk
//! from its own start, nothing remembered".

mod alignment;
mod discovery;
mod disposition;

use crate::grounds::{Discovery, Grounds, Reason, ResultReason};
use crate::message::Message;
use crate::policy::Policy;
use crate::txt::Answer;
use crate::verdict::{AppliedPolicy, Verdict};
use crate::walk::{AskedName, Asker, Found, NoAnswerYet};
use disposition::Policies;

/// How far the separate walks come over the given answers.
#[derive(Clone, Debug, PartialEq, Eq)]
pub enum Progress {
    /// The first name without an answer.
    Ask(AskedName),
    Verdict(Verdict),
}

/// The list, "each once, where it first comes" (a name without an answer is its
/// last), and what came of it.
#[derive(Clone, Debug, PartialEq, Eq)]
pub struct Evaluation {
    pub names: Vec<AskedName>,
    pub progress: Progress,
    /// What the verdict rests on; nothing before there is one.
    pub grounds: Option<Grounds>,
}

/// Runs a to f over the answers: a name to its answer, or nothing if it has no
/// answer yet.
pub fn evaluate<'a>(
    message: &Message,
    answers: impl Fn(&[u8]) -> Option<Answer<'a>>,
) -> Evaluation {
    let mut asker = Asker::new(&answers);
    let (progress, grounds) = match judge(&mut asker, message) {
        Ok((mut verdict, grounds)) => {
            verdict.asked = asker.names.len();
            (Progress::Verdict(verdict), Some(grounds))
        }
        Err(NoAnswerYet(name)) => (Progress::Ask(name), None),
    };
    Evaluation {
        names: asker.names,
        progress,
        grounds,
    }
}

/// Steps a to f; the count is put in by the caller.
fn judge(asker: &mut Asker, message: &Message) -> Result<(Verdict, Grounds), NoAnswerYet> {
    let mut grounds = discovery::discover(asker, message)?;
    // "Policy is "none" for results none and permerror, and "unknown" for the
    // temperror of a".
    let mut policy = match grounds.discovery {
        Discovery::Error => AppliedPolicy::Unknown,
        _ => AppliedPolicy::Known(Policy::None),
    };
    let applied = grounds.applied().cloned();
    if let Some(applied) = &applied {
        // "After none, permerror or the temperror of a, no identifier is walked".
        if let Some(policies) = disposition::policies(&applied.settings) {
            policy = judged(asker, message, applied, &policies, &mut grounds)?;
        }
    }
    let result = grounds.result.result();
    let verdict = Verdict {
        result,
        domain: applied.map_or(Vec::new(), |found| found.domain.octets().to_vec()),
        policy,
        disposition: disposition::disposition(result, policy, message.support),
        alignments: grounds.reasons.iter().map(Reason::alignment).collect(),
        asked: 0,
    };
    Ok((verdict, grounds))
}

/// Steps c to e by a record whose policies are known. Gives the policy.
fn judged(
    asker: &mut Asker,
    message: &Message,
    applied: &Found,
    policies: &Policies,
    grounds: &mut Grounds,
) -> Result<AppliedPolicy, NoAnswerYet> {
    alignment::compare(asker, message, &applied.settings, grounds)?;
    let own = applied.domain == message.author;
    grounds.source = disposition::policy_source(policies, own, message.existence);
    grounds.read_as_none = policies.read_as_none;
    let policy = disposition::policy(grounds.source, applied.settings.testing);
    grounds.result = match alignment::result_reason(message, &grounds.reasons) {
        // "else "unknown", and then fail becomes temperror"
        ResultReason::NoneAligned if policy == AppliedPolicy::Unknown => {
            ResultReason::PolicyUnknown
        }
        reason => reason,
    };
    Ok(policy)
}
