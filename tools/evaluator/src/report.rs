//! The report file name, the subject of its mail and the Identity-Alignment field.

use crate::domain::Domain;
use crate::message::{Kind, Message};
use crate::refusal::Refusal;
use crate::verdict::{Alignment, DmarcResult, Verdict};

/// "id empty, not alphanumeric or over 64 octets"
pub const MOST_ID_OCTETS: usize = 64;

/// Writes an output into lent memory: "On success an output starts at octet 0
/// and what lies past its end is unchanged"; 10 gives the octets needed.
pub fn lend(text: &[u8], out: &mut [u8]) -> Result<usize, Refusal> {
    let needed = Refusal::new(10, text.len());
    let part = out.get_mut(..text.len()).ok_or(needed)?;
    part.copy_from_slice(text);
    Ok(text.len())
}

/// What a report file is named after.
#[derive(Clone, Copy, Debug)]
pub struct FileName<'a> {
    pub receiver: &'a [u8],
    pub policy_domain: &'a [u8],
    pub begin: u64,
    pub end: u64,
    /// "then optionally `!` id": absence differs from emptiness.
    pub id: Option<&'a [u8]>,
}

/// "For a file name: 11, 10."
pub fn file_name(parts: &FileName, out: &mut [u8]) -> Result<usize, Refusal> {
    let (receiver, policy) = (written(parts.receiver)?, written(parts.policy_domain)?);
    if parts.id.is_some_and(bad_id) || parts.begin > parts.end {
        return Err(Refusal::new(11, 0));
    }
    lend(&file_name_text(&receiver, &policy, parts), out)
}

/// A domain that is written in lower case, or 11.
pub fn written(domain: &[u8]) -> Result<Domain, Refusal> {
    Domain::read(domain).map_err(|_| Refusal::new(11, 0))
}

pub fn bad_id(id: &[u8]) -> bool {
    id.is_empty() || id.len() > MOST_ID_OCTETS || !id.iter().all(u8::is_ascii_alphanumeric)
}

/// "receiver `!` policy domain `!` begin `!` end, then optionally `!` id, then
/// `.xml`; domains in lower case"
fn file_name_text(receiver: &Domain, policy: &Domain, parts: &FileName) -> Vec<u8> {
    let mut text = [receiver.octets(), policy.octets()].join(&b'!');
    text.extend(format!("!{}!{}", parts.begin, parts.end).bytes());
    if let Some(id) = parts.id {
        text.push(b'!');
        text.extend(id);
    }
    text.extend(b".xml");
    text
}

/// What the subject of a mail with a report is made of.
#[derive(Clone, Copy, Debug)]
pub struct Subject<'a> {
    pub receiver: &'a [u8],
    pub policy_domain: &'a [u8],
    pub id: &'a [u8],
}

/// Ask 9 of document 02: "the mail subject of section 3.5.2, single spaced, the file
/// name's report id in angle brackets; refusals 11, 10".
pub fn subject(parts: &Subject, out: &mut [u8]) -> Result<usize, Refusal> {
    let (receiver, policy) = (written(parts.receiver)?, written(parts.policy_domain)?);
    if bad_id(parts.id) {
        return Err(Refusal::new(11, 0));
    }
    let words: [&[u8]; 6] = [
        b"Report Domain:",
        policy.octets(),
        b"Submitter:",
        receiver.octets(),
        b"Report-ID:",
        &[b"<", parts.id, b">"].concat(),
    ];
    lend(&words.join(&b' '), out)
}

/// The field of a message at its verdict: 9 "when the result is neither pass
/// nor fail, or no identifier was given".
pub fn field_text(message: &Message, verdict: &Verdict) -> Result<Vec<u8>, Refusal> {
    let result_fits = matches!(verdict.result, DmarcResult::Pass | DmarcResult::Fail);
    if !result_fits || message.identifiers.is_empty() {
        return Err(Refusal::new(9, 0));
    }
    Ok(identity_alignment(&judged(message, verdict)))
}

/// The kind of each identifier, and its alignment.
pub fn judged(message: &Message, verdict: &Verdict) -> Vec<(Kind, Alignment)> {
    let kinds = message.identifiers.iter().map(|identifier| identifier.kind);
    kinds.zip(verdict.alignments.iter().copied()).collect()
}

/// "`Identity-Alignment: ` then `none`, `dkim`, `spf` or `dkim, spf`, then
/// CR LF."
pub fn identity_alignment(judged: &[(Kind, Alignment)]) -> Vec<u8> {
    let methods = match (listed(judged, Kind::Dkim), listed(judged, Kind::Spf)) {
        (false, false) => "none",
        (true, false) => "dkim",
        (false, true) => "spf",
        (true, true) => "dkim, spf",
    };
    format!("Identity-Alignment: {methods}\r\n").into_bytes()
}

/// "A method is listed if identifiers of its kind were given and none is
/// aligned."
fn listed(judged: &[(Kind, Alignment)], kind: Kind) -> bool {
    let mut given = judged.iter().filter(|(own, _)| *own == kind).peekable();
    given.peek().is_some() && given.all(|(_, alignment)| *alignment != Alignment::Aligned)
}
