//! A whole message from a sheet.

use crate::calls;

/// As many octets as are printed for a sheet at the most.
pub const PRINTED_OCTETS: usize = 36_864;

/// Runs a sheet: gives the length of what is printed for it, which stands in the
/// output if there is room; else the output is as it was.
///
/// ```
/// let mut out = [0; waslidhaj::PRINTED_OCTETS];
/// let length = waslidhaj::run(b"AU\0\x06\x01\x01a..b", &mut out);
/// assert_eq!(&out[..length], b"refused 1 at 2\n");
/// ```
pub fn run(sheet: impl AsRef<[u8]>, out: &mut [u8]) -> usize {
    calls::run(sheet.as_ref(), out)
}
