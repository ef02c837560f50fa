//! The two lists beside the rows, put together octet by octet.

use crate::octets::record;

/// A list of author domains.
pub fn authors(domains: &[&str]) -> Vec<u8> {
    let records = domains
        .iter()
        .map(|domain| record(b"AU", domain.as_bytes()));
    records.flatten().collect()
}

/// An identifier of a set: kind, outcome, selector and domain.
pub fn member(kind: u8, outcome: u8, selector: &str, domain: &str) -> Vec<u8> {
    let length = u8::try_from(selector.len()).expect("a selector of 255 octets");
    let body = [
        &[kind, outcome, length],
        selector.as_bytes(),
        domain.as_bytes(),
    ];
    record(b"ID", &body.concat())
}

/// A set of identifiers, in a list of sets.
pub fn set(members: &[Vec<u8>]) -> Vec<u8> {
    record(b"ST", &members.concat())
}
