//! Why each identifier is aligned or not.

use super::told::{shown, Told};
use super::Paragraph;
use evaluator::grounds::Reason;
use evaluator::message::{Identifier, Kind, Outcome};

pub fn paragraphs(told: &Told) -> Vec<Paragraph> {
    let identifiers = told.message.identifiers.iter().enumerate();
    let paragraph = |(index, identifier)| one(told, index, identifier);
    identifiers.map(paragraph).collect()
}

fn one(told: &Told, index: usize, identifier: &Identifier) -> Paragraph {
    let kind = match identifier.kind {
        Kind::Spf => "SPF",
        Kind::Dkim => "DKIM",
    };
    let outcome = match identifier.outcome {
        Outcome::NotPassing => "not passing",
        Outcome::Pass => "pass",
        Outcome::TemporaryError => "temporary error",
    };
    let domain = shown(&identifier.domain);
    let line = Paragraph::new(format!("identifier {index}: {kind} {outcome} {domain}"));
    let reason = told.grounds.reasons.get(index);
    let aligned = |reason: &Reason| format!("{}: {}", reason.alignment().word(), why(told, index));
    line.details(reason.map(aligned))
}

/// Why an identifier has its alignment.
pub fn why(told: &Told, index: usize) -> String {
    let grounds = told.grounds;
    let author = grounds.organizational.as_ref().map_or(String::new(), shown);
    let Some(reason) = grounds.reasons.get(index) else {
        return String::new();
    };
    match reason {
        Reason::NotReached => told.not_judged().to_string(),
        Reason::NotPassing => "its outcome is not pass".to_string(),
        Reason::TemporaryError => "its outcome is a temporary error".to_string(),
        Reason::SameDomain => "it is the author domain".to_string(),
        Reason::StrictMode => {
            "not the author domain, and the record asks for strict mode".to_string()
        }
        Reason::AuthorWalkError => {
            let ended = told.ended_in_error(&grounds.author);
            format!("not walked, since the author's walk {ended}")
        }
        Reason::WalkError(walk) => format!("its walk {}", told.ended_in_error(walk)),
        Reason::SameOrganizational(_) => {
            format!("its organizational domain is the author's, {author}")
        }
        Reason::OtherOrganizational(_, own) => format!(
            "its organizational domain is {}, the author's is {author}",
            shown(own)
        ),
    }
}
