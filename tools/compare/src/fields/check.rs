//! One field by both.

use super::tally::Tally;
use super::written::Given;
use evaluator::report::identity_alignment;
use records::field::agreed;
use records::field::code::Read;
use sheets::description::quoted;

/// A field read by both.
pub fn check(
    reader: &impl Fn(&[u8]) -> Read,
    text: &[u8],
    tally: &mut Tally,
) -> Result<(), String> {
    let read = agreed(reader, text)?;
    tally.add(&read);
    Ok(())
}

/// "every field we write reads back as its own": both write the same, and both
/// read of it what was handed in.
pub fn check_written(
    reader: &impl Fn(&[u8]) -> Read,
    writer: &impl Fn(Given) -> Result<Vec<u8>, String>,
    given: Given,
    tally: &mut Tally,
) -> Result<(), String> {
    let (text, expected) = (writer(given)?, identity_alignment(&given.judged()));
    if text != expected {
        let (text, expected) = (quoted(&text), quoted(&expected));
        return Err(format!(
            "{text} is written, and {expected} by the reference"
        ));
    }
    let read = agreed(reader, &text)?;
    tally.add(&read);
    match read == Ok(given.methods()) {
        true => Ok(()),
        false => Err(format!("{} reads back as {read:?}", quoted(&text))),
    }
}
