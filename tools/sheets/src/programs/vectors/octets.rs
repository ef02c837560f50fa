//! Octets that several tables of cases use.

/// Octets at the edges of every class that a rule of document 01 names:
/// blanks, 32 to 126, letters, digits, hex digits, the characters of domains,
/// schemes and URIs, and some of these with the high bit set.
pub const EDGES: &[u8] =
    b"\0\x08\t\n\x0b\x0c\r\x1f !\"#$%&'()*+,-./09:;<=>?@AFGZ[\\]^_`afgz{|}~\x7f\x80\xa0\xad\xb0\xe1\xff";

/// One octet repeated between two texts, so many octets in all.
pub fn padded(before: &[u8], octet: u8, after: &[u8], octets: usize) -> Vec<u8> {
    let between = octets.saturating_sub(before.len() + after.len());
    [before, &vec![octet; between], after].concat()
}
