//! The Identity-Alignment field of a failure report (RFC 9991), read.

use crate::calls;
use crate::refusal::Refusal;

/// The methods that a field names: those that failed to authenticate an aligned
/// identity. Neither is named by `none`.
#[derive(Clone, Copy, Debug, PartialEq, Eq)]
pub struct Methods {
    /// DKIM.
    pub dkim: bool,
    /// SPF.
    pub spf: bool,
}

/// Reads a field, its name and its closing CR LF included. Refused 24 (not the
/// grammar), 25 (a ninth comment within comments) or 26 (a method named already),
/// each with its octet as place; the earliest is given.
///
/// ```
/// use waslidhaj::{read_field, Methods};
///
/// let methods = read_field(b"Identity-Alignment: spf (a comment)\r\n")?;
/// assert_eq!(methods, Methods { dkim: false, spf: true });
/// let refusal = read_field(b"Identity-Alignment: dkim; spf\r\n").unwrap_err();
/// assert_eq!((refusal.number, refusal.place), (24, 24));
/// # Ok::<(), waslidhaj::Refusal>(())
/// ```
pub fn read_field(text: &[u8]) -> Result<Methods, Refusal> {
    let read = calls::read_field(text);
    Refusal::check(read.refusal)?;
    Ok(Methods {
        dkim: read.dkim != 0,
        spf: read.spf != 0,
    })
}
