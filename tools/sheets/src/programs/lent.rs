//! How lent memory is shown in a line.

use evaluator::refusal::Refusal;

/// What lent memory is filled with.
pub const FILL: u8 = 255;
/// The modulus of the sums over lent memory.
const MODULUS: usize = 65_521;

pub fn written_words(written: Result<usize, Refusal>) -> String {
    match written {
        Ok(octets) => format!("wrote {octets}"),
        Err(refusal) => refusal.to_string(),
    }
}

/// Lent memory up to and including its last octet that is not 255.
pub fn used(lent: &[u8]) -> &[u8] {
    let last = lent.iter().rposition(|octet| *octet != FILL);
    last.and_then(|last| lent.get(..=last)).unwrap_or_default()
}

/// How many octets are used, and the sum over all octets of their number, from
/// 1, times their value.
pub fn sums(lent: &[u8]) -> String {
    let weighed = (1..)
        .zip(lent)
        .map(|(number, octet)| number * usize::from(*octet));
    let sum = weighed.fold(0, |sum, more| (sum + more) % MODULUS);
    format!("{}:{sum}", used(lent).len())
}
