//! The parts of a policy text: "Split at `;`. Blanks are space and tab."

use std::collections::HashSet;

/// A well-formed part, with its value's place in the text.
#[derive(Clone, Copy, Debug, PartialEq, Eq)]
pub struct Tag<'a> {
    pub name: &'a [u8],
    pub value: &'a [u8],
    pub place: usize,
}

/// A part without the blanks at its ends, and its tag if it is well-formed.
#[derive(Clone, Copy, Debug, PartialEq, Eq)]
pub struct Part<'a> {
    pub text: &'a [u8],
    pub tag: Result<Tag<'a>, PartFault>,
}

/// What is wrong first with a part that is not well-formed.
#[derive(Clone, Copy, Debug, PartialEq, Eq)]
pub enum PartFault {
    Empty,
    NoEquals,
    NoName,
    /// The name has this octet, which is no letter.
    NoLetter(u8),
    NoValue,
    /// The value has this octet, which is not one of 32 to 126.
    Outside(u8),
}

/// What is wrong first with the first part of a text that is no policy record.
#[derive(Clone, Copy, Debug, PartialEq, Eq)]
pub enum VersionFault {
    BlankBefore,
    NoV,
    NoEquals,
    OtherValue,
}

/// All parts in order, the first one with them, or what is wrong with the first.
pub fn parts(text: &[u8]) -> Result<Vec<Part<'_>>, VersionFault> {
    let mut parts = Vec::new();
    let mut place = 0;
    for (number, part) in text.split(|octet| *octet == b';').enumerate() {
        if number == 0 {
            version(part)?;
        }
        parts.push(Part {
            text: trimmed(part).1,
            tag: tag(part, place),
        });
        place += part.len() + 1;
    }
    Ok(parts)
}

/// The well-formed parts in order, "the first `v` with them"; nothing if the
/// first part is not as it must be.
pub fn well_formed(text: &[u8]) -> Option<Vec<Tag<'_>>> {
    let parts = parts(text).ok()?;
    Some(parts.iter().filter_map(|part| part.tag.ok()).collect())
}

/// The first name that comes again, "known or not, in either case".
pub fn repeated<'a>(tags: &[Tag<'a>]) -> Option<&'a [u8]> {
    let mut seen = HashSet::new();
    let mut names = tags.iter().map(|tag| tag.name);
    names.find(|name| !seen.insert(name.to_ascii_lowercase()))
}

/// "`v`, blanks, `=`, blanks, `DMARC1`, blanks, with no blank before `v`"
fn version(part: &[u8]) -> Result<(), VersionFault> {
    let rest = match part.split_first() {
        Some((b'v' | b'V', rest)) => trimmed(rest).1,
        Some((b' ' | b'\t', _)) => return Err(VersionFault::BlankBefore),
        _ => return Err(VersionFault::NoV),
    };
    let Some((b'=', value)) = rest.split_first() else {
        return Err(VersionFault::NoEquals);
    };
    match trimmed(value).1 == b"DMARC1" {
        true => Ok(()),
        false => Err(VersionFault::OtherValue),
    }
}

/// "blanks trimmed: letters, blanks, `=`, blanks, value of one or more octets 32
/// to 126. Other parts ... are ignored." The first part is of this form too.
fn tag(part: &[u8], part_place: usize) -> Result<Tag<'_>, PartFault> {
    let (leading, body) = trimmed(part);
    if body.is_empty() {
        return Err(PartFault::Empty);
    }
    let equals = body.iter().position(|octet| *octet == b'=');
    let equals = equals.ok_or(PartFault::NoEquals)?;
    let name = trimmed(body.get(..equals).unwrap_or_default()).1;
    let (blanks, value) = trimmed(body.get(equals + 1..).unwrap_or_default());
    named(name)?;
    valued(value)?;
    Ok(Tag {
        name,
        value,
        place: part_place + leading + equals + 1 + blanks,
    })
}

/// One letter or more, and nothing else.
fn named(name: &[u8]) -> Result<(), PartFault> {
    match name.iter().find(|octet| !octet.is_ascii_alphabetic()) {
        _ if name.is_empty() => Err(PartFault::NoName),
        Some(octet) => Err(PartFault::NoLetter(*octet)),
        None => Ok(()),
    }
}

fn valued(value: &[u8]) -> Result<(), PartFault> {
    match value.iter().find(|octet| !printing(octet)) {
        _ if value.is_empty() => Err(PartFault::NoValue),
        Some(octet) => Err(PartFault::Outside(*octet)),
        None => Ok(()),
    }
}

/// "octets 32 to 126"
pub fn printing(octet: &u8) -> bool {
    (32..=126).contains(octet)
}

/// The blanks (space and tab) before a text, and the text without blanks at
/// either end.
pub fn trimmed(text: &[u8]) -> (usize, &[u8]) {
    let blank = |octet: &&u8| blank(**octet);
    let leading = text.iter().take_while(blank).count();
    let rest = text.get(leading..).unwrap_or_default();
    let trailing = rest.iter().rev().take_while(blank).count();
    let kept = rest.len() - trailing;
    (leading, rest.get(..kept).unwrap_or_default())
}

/// "Blanks are space and tab."
pub fn blank(octet: u8) -> bool {
    octet == b' ' || octet == b'\t'
}
