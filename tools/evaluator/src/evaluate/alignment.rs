//! Steps c and d: the alignment of each identifier, and the result they give.

use crate::domain::Domain;
use crate::grounds::{Grounds, Reason, ResultReason};
use crate::message::{Identifier, Kind, Message, Outcome};
use crate::policy::{Mode, Settings};
use crate::verdict::Alignment;
use crate::walk::{Asker, NoAnswerYet};

/// Step c: the reason of each identifier's alignment, in the given order.
pub fn compare(
    asker: &mut Asker,
    message: &Message,
    applied: &Settings,
    grounds: &mut Grounds,
) -> Result<(), NoAnswerYet> {
    let author = &message.author;
    let unwalked = |identifier: &Identifier| unwalked(identifier, author, applied);
    let must_be_walked = |identifier: &Identifier| unwalked(identifier).is_none();
    // "If any must be compared this way, the author's walk is first completed."
    if message.identifiers.iter().any(must_be_walked) {
        grounds.complete(asker.walk(0, author)?);
    }
    let mut reasons = Vec::new();
    for (index, identifier) in message.identifiers.iter().enumerate() {
        reasons.push(match unwalked(identifier) {
            Some(reason) => reason,
            None => walked(asker, index, identifier, grounds.organizational.as_ref())?,
        });
    }
    grounds.reasons = reasons;
    Ok(())
}

/// The reason of an identifier that is not walked; nothing if it must be:
/// passing, not the author's domain, and not in strict mode.
fn unwalked(identifier: &Identifier, author: &Domain, applied: &Settings) -> Option<Reason> {
    let mode = match identifier.kind {
        Kind::Spf => applied.aspf,
        Kind::Dkim => applied.adkim,
    };
    match identifier.outcome {
        Outcome::NotPassing => Some(Reason::NotPassing),
        Outcome::TemporaryError => Some(Reason::TemporaryError),
        Outcome::Pass if identifier.domain == *author => Some(Reason::SameDomain),
        Outcome::Pass => (mode == Mode::Strict).then_some(Reason::StrictMode),
    }
}

/// "aligned means equal organizational domains; an error in its walk: unknown";
/// it is not walked if "the author's walk ended in an error".
fn walked(
    asker: &mut Asker,
    index: usize,
    identifier: &Identifier,
    author_organizational: Option<&Domain>,
) -> Result<Reason, NoAnswerYet> {
    let Some(author_organizational) = author_organizational else {
        return Ok(Reason::AuthorWalkError);
    };
    let walk = asker.walk(index + 1, &identifier.domain)?;
    Ok(match walk.organizational_domain() {
        None => Reason::WalkError(walk),
        Some(own) if own == *author_organizational => Reason::SameOrganizational(walk),
        Some(own) => Reason::OtherOrganizational(walk, own),
    })
}

/// Step d: "Any aligned: pass. Else any unknown, or any outcome 2: temperror.
/// Else fail."
pub fn result_reason(message: &Message, reasons: &[Reason]) -> ResultReason {
    let any = |alignment| reasons.iter().any(|reason| reason.alignment() == alignment);
    let outcome_2 = |identifier: &Identifier| identifier.outcome == Outcome::TemporaryError;
    if any(Alignment::Aligned) {
        ResultReason::SomeAligned
    } else if any(Alignment::Unknown) {
        ResultReason::SomeUnknown
    } else if message.identifiers.iter().any(outcome_2) {
        ResultReason::SomeTemporaryError
    } else {
        ResultReason::NoneAligned
    }
}
