//! Holds the proved reader of the Identity-Alignment field to the second
//! evaluator's, and the fields that are written to both readers.

mod check;
mod generate;
mod odd;
mod short;
mod tally;
#[cfg(test)]
mod tests;
mod written;

use check::{check, check_written};
use records::field::code::Read;
use tally::Tally;

pub use written::{proved as proved_writer, Given};

/// A run of so many generated fields must reach every answer.
const MANY: u64 = 1_000;

/// Compares on the fields that are written, on those written by hand, on all short
/// ones and on so many generated ones; gives a line of what was agreed on, or the
/// first difference.
pub fn compare(
    reader: impl Fn(&[u8]) -> Read,
    writer: impl Fn(Given) -> Result<Vec<u8>, String>,
    count: u64,
    seed: u64,
) -> Result<String, String> {
    let mut given = Tally::default();
    for message in Given::all() {
        let checked = check_written(&reader, &writer, message, &mut given);
        checked.map_err(|fault| format!("the field of {message:?}: {fault}"))?;
    }
    let (by_hand, short) = (odd::fields(), short::fields());
    for text in &by_hand {
        let checked = check(&reader, text, &mut given);
        checked.map_err(|fault| format!("a field written by hand: {fault}"))?;
    }
    for text in &short {
        let checked = check(&reader, text, &mut given);
        checked.map_err(|fault| format!("a short field: {fault}"))?;
    }
    let mut generated = Tally::default();
    for index in 0..count {
        let checked = check(&reader, &generate::field(seed, index), &mut generated);
        checked.map_err(|fault| format!("a field, seed {seed}, index {index}: {fault}"))?;
    }
    if count >= MANY {
        generated.complete()?;
    }
    let all = given.with(&generated);
    Ok(format!(
        "agree on {} fields ({} that both write, {} by hand, {} short ones and {count} of seed \
         {seed}): {all}",
        all.fields(),
        Given::all().len(),
        by_hand.len(),
        short.len()
    ))
}
