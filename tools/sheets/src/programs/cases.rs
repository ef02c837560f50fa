//! The files of cases for a program: how they are written.

/// CASES, and EXPECTED: what a program that reads them must print.
#[derive(Clone, Debug, Default, PartialEq, Eq)]
pub struct Files {
    pub cases: Vec<u8>,
    pub expected: Vec<u8>,
}

impl Files {
    /// Adds a case, and what must be printed for it.
    pub fn push(&mut self, octets: &[u8], expected: &[u8]) {
        self.cases.extend(octets);
        self.expected.extend(expected);
    }
}

/// A case: one octet kind, a 16-bit length (high octet first) and the body, or
/// nothing if the body is too long for its length.
pub fn octets(kind: u8, body: &[u8]) -> Option<Vec<u8>> {
    let length = u16::try_from(body.len()).ok()?;
    let mut octets = vec![kind];
    octets.extend(length.to_be_bytes());
    octets.extend(body);
    Some(octets)
}
