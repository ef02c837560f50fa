//! Holds the proved daily rows to the second evaluator's, history by history:
//! after every call the answer, the list and all lent rows.

pub mod agreement;
pub mod code;
mod generate;
pub mod history;
pub mod odd;
mod sums;
pub mod tally;
#[cfg(test)]
pub mod tests;

use agreement::check;
use code::Code;
use tally::Tally;

pub use code::Proved;

/// A run of so many generated histories must reach every answer.
const MANY: u64 = 1_000;

/// Compares on the histories written by hand and on generated ones; gives a line
/// of what was agreed on, or the first difference.
pub fn compare(code: &impl Code, count: u64, seed: u64) -> Result<String, String> {
    let mut given = Tally::default();
    for (name, history) in odd::histories() {
        let checked = check(code, &history, &mut given);
        checked.map_err(|fault| format!("{name}: {fault}"))?;
    }
    let mut generated = Tally::default();
    for index in 0..count {
        let history = generate::history(seed, index);
        let checked = check(code, &history, &mut generated);
        checked.map_err(|fault| format!("seed {seed}, index {index}: {fault}"))?;
    }
    if count >= MANY {
        generated.complete()?;
    }
    Ok(format!("agree on {}", given.with(&generated)))
}
