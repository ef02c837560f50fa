//! Step a: the record that applies.

use crate::domain::Domain;
use crate::grounds::{AppliedBy, Discovery, Grounds};
use crate::message::Message;
use crate::policy::Psd;
use crate::txt::Reply;
use crate::walk::{Asker, Found, NoAnswerYet, Walk};

pub fn discover(asker: &mut Asker, message: &Message) -> Result<Grounds, NoAnswerYet> {
    let author = &message.author;
    // "pausing if its own name has a record"
    if let Reply::Record(settings) = asker.look(0, author, author)? {
        let domain = author.clone();
        return Ok(Grounds::paused(message, Found { domain, settings }));
    }
    let walk = asker.walk(0, author)?;
    let organizational = walk.organizational_domain();
    let discovery = discovered(&walk, organizational.as_ref());
    Ok(Grounds::walked(message, discovery, walk, organizational))
}

/// The record that applies where the author has none of its own: the
/// organizational domain's, "where the author's walk found one; else the psd=y
/// one".
fn discovered(walk: &Walk, organizational: Option<&Domain>) -> Discovery {
    // "An error before it is known: temperror."
    let Some(organizational) = organizational else {
        return Discovery::Error;
    };
    let at_organizational = walk.found.iter().find(|f| f.domain == *organizational);
    let psd_yes = walk.found.iter().find(|f| f.settings.psd == Psd::Yes);
    match (at_organizational, psd_yes) {
        (Some(found), _) => Discovery::Applied(found.clone(), AppliedBy::Organizational),
        (None, Some(found)) => Discovery::Applied(found.clone(), AppliedBy::PsdYes),
        (None, None) => Discovery::Nothing,
    }
}
