//! The two lists of Ask 9 of document 02, which are "handed in beside the rows":
//! author domains, and sets of identifiers.

use crate::message::{admitted, Kind, Outcome};
use crate::rows::Seen;

/// "Where an octet is missing, the number is 255": no kind and no outcome.
const MISSING: u8 = 255;

/// Both as they are handed in, each one text of records one after the other.
#[derive(Clone, Copy, Debug, Default, PartialEq, Eq)]
pub struct Lists<'a> {
    /// "a body is an author domain"
    pub authors: &'a [u8],
    /// "a body is again such records, one for each identifier"
    pub sets: &'a [u8],
}

/// Both by their records. Places count from 0.
#[derive(Clone, Debug, PartialEq, Eq)]
pub struct Listed<'a> {
    authors: Vec<&'a [u8]>,
    sets: Vec<&'a [u8]>,
}

/// An identifier of a set, its selector and domain as they stand there.
#[derive(Clone, Copy, Debug, PartialEq, Eq)]
pub struct Member<'a> {
    pub kind: Kind,
    pub outcome: Outcome,
    pub selector: &'a [u8],
    pub domain: &'a [u8],
}

/// What the two numbers of a row stand for.
#[derive(Clone, Debug, PartialEq, Eq)]
pub struct Meant<'a> {
    pub author: &'a [u8],
    pub set: Vec<Member<'a>>,
}

impl<'a> Lists<'a> {
    pub fn read(self) -> Listed<'a> {
        let (authors, _) = records(self.authors);
        let (sets, _) = records(self.sets);
        Listed { authors, sets }
    }
}

impl<'a> Listed<'a> {
    /// What a row's numbers stand for; nothing is refusal 28: "such a row's number
    /// past its list, or a set that 01 would refuse 3 or 4".
    pub fn meant(&self, seen: &Seen) -> Option<Meant<'a>> {
        Some(Meant {
            author: at(&self.authors, seen.author)?,
            set: members(at(&self.sets, seen.set)?)?,
        })
    }
}

/// The body at a place.
fn at<'a>(bodies: &[&'a [u8]], place: u32) -> Option<&'a [u8]> {
    bodies.get(usize::try_from(place).ok()?).copied()
}

/// The bodies of a text's records, and the octets behind them: "A record that runs
/// past the end of the text is no record: its place and all later ones are past the
/// list."
fn records(text: &[u8]) -> (Vec<&[u8]>, &[u8]) {
    let (mut bodies, mut rest) = (Vec::new(), text);
    while let Some((body, after)) = record(rest) {
        bodies.push(body);
        rest = after;
    }
    (bodies, rest)
}

/// "two octets that are NOT read (the mark), 16-bit length (high octet first), body"
fn record(text: &[u8]) -> Option<(&[u8], &[u8])> {
    let [_, _, high, low, rest @ ..] = text else {
        return None;
    };
    let length = u16::from_be_bytes([*high, *low]);
    rest.split_at_checked(usize::from(length))
}

/// The identifiers of a set, or nothing if 01 would refuse it 3 or 4, "whatever its
/// domains".
fn members(set: &[u8]) -> Option<Vec<Member<'_>>> {
    let (mut bodies, cut) = records(set);
    // "The record of an identifier that runs past the set's end reads as one with
    // no octets".
    if !cut.is_empty() {
        bodies.push(b"");
    }
    let (mut kinds, mut members) = (Vec::new(), Vec::new());
    for body in bodies {
        let member = member(&kinds, body)?;
        kinds.push(member.kind);
        members.push(member);
    }
    Some(members)
}

/// "kind (0 SPF, 1 DKIM), outcome (0, 1, 2), selector length (one octet), the
/// selector, and then the domain, which fills the rest"
fn member<'a>(before: &[Kind], body: &'a [u8]) -> Option<Member<'a>> {
    let number = |place: usize| body.get(place).copied().unwrap_or(MISSING);
    let (kind, outcome) = admitted(before, number(0), number(1)).ok()?;
    let rest = body.get(3..).unwrap_or_default();
    // "If the selector length is past the body, the selector is what is there and
    // the domain is empty."
    let (selector, domain) = rest.split_at(rest.len().min(usize::from(number(2))));
    Some(Member {
        kind,
        outcome,
        selector,
        domain,
    })
}
