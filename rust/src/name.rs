//! The name to ask.

use std::fmt;

use crate::raw::Written;
use crate::CHECK_NAME_OCTETS;

/// A name to ask for its TXT records, in lower case, as `_dmarc.example.com`.
#[derive(Clone, Copy, PartialEq, Eq)]
pub struct Name {
    octets: [u8; CHECK_NAME_OCTETS],
    length: usize,
}

impl Name {
    /// What a writer writes; nothing where it is refused.
    pub(crate) fn of(write: impl FnOnce(&mut [u8]) -> Written) -> Name {
        let mut octets = [0; CHECK_NAME_OCTETS];
        let length = write(&mut octets).length.min(CHECK_NAME_OCTETS);
        Name { octets, length }
    }

    /// Its octets.
    pub fn as_bytes(&self) -> &[u8] {
        &self.octets[..self.length]
    }

    /// Its text. It is empty where the octets are none, as only those of a state or
    /// a check that no call gave can be.
    pub fn as_str(&self) -> &str {
        std::str::from_utf8(self.as_bytes()).unwrap_or_default()
    }
}

impl AsRef<[u8]> for Name {
    fn as_ref(&self) -> &[u8] {
        self.as_bytes()
    }
}

impl fmt::Display for Name {
    fn fmt(&self, out: &mut fmt::Formatter<'_>) -> fmt::Result {
        out.write_str(self.as_str())
    }
}

impl fmt::Debug for Name {
    fn fmt(&self, out: &mut fmt::Formatter<'_>) -> fmt::Result {
        write!(out, "Name(\"{}\")", self.as_bytes().escape_ascii())
    }
}
