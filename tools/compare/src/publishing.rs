//! Holds the proved writer and reader of policy records to the second
//! evaluator's: settings written and read back, and texts read, written and read
//! again.

mod check;
pub mod generate;
mod odd;
mod rua;
mod tally;
#[cfg(test)]
pub mod tests;

use check::{check_text, check_writing};
use records::code::Code;
use tally::Tally;

/// A run of so many generated cases must reach every answer.
const MANY: u64 = 1_000;

/// Compares on the settings and texts written by hand and on so many generated
/// ones of each; gives a line of what was agreed on, or the first difference.
pub fn compare(code: &impl Code, count: u64, seed: u64) -> Result<String, String> {
    let mut given = Tally::default();
    for case in odd::cases() {
        let checked = check_writing(code, &case.writing(), &mut given);
        checked.map_err(|fault| format!("settings written by hand: {fault}"))?;
    }
    for text in odd::texts() {
        let checked = check_text(code, &text, &mut given);
        checked.map_err(|fault| format!("a text written by hand: {fault}"))?;
    }
    let mut generated = Tally::default();
    for index in 0..count {
        let fault = |what: &'static str| {
            move |fault: String| format!("{what}, seed {seed}, index {index}: {fault}")
        };
        let case = generate::case(seed, index);
        let checked = check_writing(code, &case.writing(), &mut generated);
        checked.map_err(fault("settings"))?;
        let text = generate::text(seed, index);
        let checked = check_text(code, &text, &mut generated);
        checked.map_err(fault("a text"))?;
    }
    if count >= MANY {
        generated.complete()?;
    }
    Ok(format!("agree on {}", given.with(&generated)))
}
