//! Answers.

/// What a lookup of TXT records came to. A lookup that failed or timed out is
/// [`Answer::Error`], and never [`Answer::NoRecords`].
#[derive(Clone, Copy, Debug, PartialEq, Eq)]
pub enum Answer<'a> {
    /// Records in the form that [`records`] makes: for each the two octets `TX`, a
    /// 16-bit length (high octet first) and the RDATA. No bytes are no records.
    Records(&'a [u8]),
    /// The name does not exist, or has no TXT records.
    NoRecords,
    /// The lookup failed.
    Error,
}

impl<'a> Answer<'a> {
    /// The status by its number, and the bytes.
    pub(crate) fn numbered(self) -> (u8, &'a [u8]) {
        match self {
            Answer::Records(bytes) => (0, bytes),
            Answer::NoRecords => (1, b""),
            Answer::Error => (2, b""),
        }
    }
}

/// The bytes of an answer with these TXT records, each by its RDATA (RFC 1035,
/// 3.3.14: character-strings, each after a length octet). Nothing if an RDATA is
/// over 65,535 octets.
///
/// ```
/// let rdata: &[u8] = b"\x03abc";
/// let bytes = waslidhaj::records(&[rdata, rdata]);
/// assert_eq!(bytes, Some(b"TX\0\x04\x03abcTX\0\x04\x03abc".to_vec()));
/// ```
pub fn records<T: AsRef<[u8]>>(rdatas: &[T]) -> Option<Vec<u8>> {
    let mut bytes = Vec::new();
    for rdata in rdatas {
        bytes.extend(record(b"TX", rdata.as_ref())?);
    }
    Some(bytes)
}

/// One record: a mark, the length of the body in 16 bits, and the body. Nothing if
/// that is over 65,535 octets.
pub(crate) fn record(mark: &[u8; 2], body: &[u8]) -> Option<Vec<u8>> {
    let length = u16::try_from(body.len()).ok()?;
    Some([mark, &length.to_be_bytes()[..], body].concat())
}
