//! The entries of a rua text: "a comma list".

use super::parts::trimmed;

/// What is wrong first with an entry that is not valid.
#[derive(Clone, Copy, Debug, PartialEq, Eq)]
pub enum EntryFault {
    Empty,
    NoColon,
    /// What stands before the first `:` is no scheme.
    NoScheme,
    NothingAfterColon,
    /// A `%` without two hex digits.
    Percent,
    /// An octet that may not stand after the `:`.
    Octet(u8),
}

/// The entries in order, each trimmed. An empty text has one, which is empty.
pub fn entries(rua: &[u8]) -> impl Iterator<Item = &[u8]> {
    let entries = rua.split(|octet| *octet == b',');
    entries.map(|entry| trimmed(entry).1)
}

/// "an entry, trimmed, is valid if it is a scheme ..., `:`, then one or more RFC
/// 3986 unreserved or reserved characters or `%` with two hex digits, no `!`"
pub fn check_entry(entry: &[u8]) -> Result<(), EntryFault> {
    if entry.is_empty() {
        return Err(EntryFault::Empty);
    }
    let colon = entry.iter().position(|octet| *octet == b':');
    let (scheme, rest) = entry.split_at(colon.ok_or(EntryFault::NoColon)?);
    let rest = rest.strip_prefix(b":").unwrap_or_default();
    if !is_scheme(scheme) {
        return Err(EntryFault::NoScheme);
    }
    if rest.is_empty() {
        return Err(EntryFault::NothingAfterColon);
    }
    check_characters(rest)
}

/// "letter, then letters, digits, `+`, `-`, `.`"
fn is_scheme(scheme: &[u8]) -> bool {
    let later = |octet: &u8| octet.is_ascii_alphanumeric() || b"+-.".contains(octet);
    match scheme.split_first() {
        Some((head, tail)) => head.is_ascii_alphabetic() && tail.iter().all(later),
        None => false,
    }
}

/// A loop rather than a recursion: the text may have any length.
fn check_characters(text: &[u8]) -> Result<(), EntryFault> {
    let mut left = text;
    loop {
        left = match left {
            [] => return Ok(()),
            [b'%', high, low, rest @ ..] if high.is_ascii_hexdigit() && low.is_ascii_hexdigit() => {
                rest
            }
            [b'%', ..] => return Err(EntryFault::Percent),
            [octet, rest @ ..] if uri_character(*octet) => rest,
            [octet, ..] => return Err(EntryFault::Octet(*octet)),
        };
    }
}

/// RFC 3986 unreserved (section 2.3) or reserved (section 2.2), less `!`.
fn uri_character(octet: u8) -> bool {
    octet.is_ascii_alphanumeric()
        || b"-._~".contains(&octet)
        || b":/?#[]@".contains(&octet)
        || b"$&'()*+,;=".contains(&octet)
}
