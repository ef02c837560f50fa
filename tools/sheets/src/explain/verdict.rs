//! The author, and the policy, result and disposition with their reasons.

use super::told::{shown, Told};
use super::Paragraph;
use evaluator::grounds::{AppliedBy, Choice, Discovery, PolicySource, ResultReason};
use evaluator::message::Existence;
use evaluator::policy::Policy;
use evaluator::verdict::{AppliedPolicy, Disposition, DmarcResult};

pub fn author(told: &Told) -> Paragraph {
    let message = told.message;
    let existence = match message.existence {
        Existence::Yes => "exists",
        Existence::No => "does not exist",
        Existence::NotKnown => "is not known to exist or not",
    };
    let support = match message.support {
        true => "other analysis supports rejecting",
        false => "other analysis does not support rejecting",
    };
    let author = shown(&message.author);
    Paragraph::new(format!("author domain: {author} {existence}; {support}"))
}

pub fn paragraphs(told: &Told) -> Vec<Paragraph> {
    let lines = [policy(told), result(told), disposition(told)];
    lines.map(Paragraph::new).to_vec()
}

/// What a tag gives, as `sp is quarantine`.
fn choice_words(choice: Choice) -> String {
    format!("{} is {}", choice.tag.word(), choice.policy.word())
}

fn policy(told: &Told) -> String {
    let why = match told.grounds.source {
        PolicySource::NotReached => told.not_judged().to_string(),
        PolicySource::Unknown { exists, missing } => format!(
            "{} for a domain that exists, {} for one that does not, and existence is not known",
            choice_words(exists),
            choice_words(missing)
        ),
        PolicySource::Known(choice) => known_policy(told, choice),
    };
    format!("policy {}: {why}", told.verdict.policy.word())
}

fn known_policy(told: &Told, choice: Choice) -> String {
    let Discovery::Applied(found, by) = &told.grounds.discovery else {
        return String::new();
    };
    let whose = match (by, told.message.existence) {
        (AppliedBy::Own, _) => "in the author domain's own record",
        (_, Existence::Yes) => "for a domain that exists",
        (_, Existence::No) => "for a domain that does not exist",
        (_, Existence::NotKnown) => "whether the domain exists or not",
    };
    let words = match told.grounds.read_as_none {
        true => "read as none".to_string(),
        false => format!("{}, {whose}", choice_words(choice)),
    };
    let step = if found.settings.testing {
        "; t=y drops it one step"
    } else {
        ""
    };
    format!("{words}{step}")
}

fn result(told: &Told) -> String {
    let reason = told.grounds.result;
    let why = match reason {
        ResultReason::NoRecord | ResultReason::NotUsable | ResultReason::RecordNotKnown => {
            told.not_judged()
        }
        ResultReason::SomeAligned => "an identifier is aligned",
        ResultReason::SomeUnknown => "no identifier is aligned, and an alignment is unknown",
        ResultReason::SomeTemporaryError => {
            "no identifier is aligned, and one has a temporary error"
        }
        ResultReason::PolicyUnknown => "no identifier is aligned, but the policy is unknown",
        ResultReason::NoneAligned if told.message.identifiers.is_empty() => {
            "there is no identifier"
        }
        ResultReason::NoneAligned => "no identifier is aligned",
    };
    format!("result {}: {why}", reason.result().word())
}

fn disposition(told: &Told) -> String {
    let verdict = told.verdict;
    let reject = AppliedPolicy::Known(Policy::Reject);
    let why = match verdict.result {
        DmarcResult::Fail
            if verdict.policy == reject && verdict.disposition != Disposition::Reject =>
        {
            "the policy is reject, but rejecting is not supported".to_string()
        }
        DmarcResult::Fail => "the policy, since the result is fail".to_string(),
        other => format!("always, where the result is {}", other.word()),
    };
    format!("disposition {}: {why}", verdict.disposition.word())
}
