//! Reading a record: what it sets, what of it is ignored and why, in lines.

use crate::agreement;
use crate::code::Code;
use crate::words::differing;
use sheets::policy_words::PolicyRecord;

/// More octets than this no TXT record has (RFC 1035, RDLENGTH of 16 bits). The
/// proved code takes a time that grows with the square of a longer text.
pub const MOST_OCTETS: usize = 65_535;

/// What a text says, in lines.
pub fn lines(code: &impl Code, text: &[u8]) -> Result<Vec<String>, String> {
    record(code, text).map(|record| record.lines())
}

/// A policy record, once both readers agree on it; the error says why a text is
/// none.
pub fn record<'a>(code: &impl Code, text: &'a [u8]) -> Result<PolicyRecord<'a>, String> {
    if text.len() > MOST_OCTETS {
        let why = "it is over 65,535 octets, and no TXT record has more";
        return Err(format!("no policy record: {why}"));
    }
    agreement::read(code, text).map_err(differing)?;
    PolicyRecord::read(text).map_err(|why| format!("no policy record: {why}"))
}
