//! Refusal 23, and the hosts of a rua text.

use crate::domain::Domain;
use crate::policy::entries::{check_entry, entries, EntryFault};
use crate::policy::parts::trimmed;

const SCHEME: &[u8] = b"mailto";

/// What refusal 23 has first against an entry.
#[derive(Clone, Copy, Debug, PartialEq, Eq)]
pub enum AddressFault {
    Comma,
    /// It is not valid as document 01 has it.
    Entry(EntryFault),
    OtherScheme,
    NoAt,
    /// What stands after its last `@` breaks the domain rule.
    Host,
}

/// An entry that 23 lets through, by its number from 1 in its rua text.
#[derive(Clone, Debug, PartialEq, Eq)]
pub struct Hosted<'a> {
    pub number: usize,
    pub entry: &'a [u8],
    pub host: Domain,
}

/// The host of an entry that 23 lets through: "23 an entry with a comma or not a
/// valid `mailto:` with a domain after its last `@`". Blanks at its ends are not of
/// the entry.
pub fn host(entry: &[u8]) -> Result<Domain, AddressFault> {
    let entry = trimmed(entry).1;
    if entry.contains(&b',') {
        return Err(AddressFault::Comma);
    }
    check_entry(entry).map_err(AddressFault::Entry)?;
    let scheme = entry.split(|octet| *octet == b':').next();
    if !scheme.is_some_and(|scheme| scheme.eq_ignore_ascii_case(SCHEME)) {
        return Err(AddressFault::OtherScheme);
    }
    let host = after_last_at(entry).ok_or(AddressFault::NoAt)?;
    Domain::read(host).map_err(|_| AddressFault::Host)
}

/// What stands after the last `@` of a text, if it has one. No scheme has any.
pub fn after_last_at(text: &[u8]) -> Option<&[u8]> {
    let at = text.iter().rposition(|octet| *octet == b'@')?;
    text.get(at + 1..)
}

/// The entries of a rua text that 23 lets through, in order.
pub fn hosted(rua: &[u8]) -> Vec<Hosted<'_>> {
    let numbered = (1..).zip(entries(rua));
    let hosted = numbered.filter_map(|(number, entry)| {
        let host = host(entry).ok()?;
        Some(Hosted {
            number,
            entry,
            host,
        })
    });
    hosted.collect()
}
