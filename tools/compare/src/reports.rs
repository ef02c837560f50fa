//! Holds the proved aggregate report and the subject of its mail (Ask 9 of document 02)
//! to the second evaluator's, day by day.

mod check;
mod code;
mod day;
mod generate;
mod odd;
mod tally;
#[cfg(test)]
mod tests;

use check::check;
use tally::Tally;

pub use check::{asked, inputs};
pub use code::{in_c, Code};
pub use day::Day;
pub use generate::day;
pub use odd::{days, longest};

/// A run of so many generated days must reach every answer.
const MANY: u64 = 1_000;

/// Compares on the days written by hand and on generated ones; gives a line of what was
/// agreed on, or the first difference.
pub fn compare(code: &impl Code, count: u64, seed: u64) -> Result<String, String> {
    let mut given = Tally::default();
    for (name, day) in odd::days() {
        let checked = check(code, &day, &mut given);
        checked.map_err(|fault| format!("{name}: {fault}"))?;
    }
    let mut generated = Tally::default();
    for index in 0..count {
        let day = generate::day(seed, index);
        let checked = check(code, &day, &mut generated);
        checked.map_err(|fault| format!("seed {seed}, index {index}: {fault}"))?;
    }
    if count >= MANY {
        generated.complete()?;
    }
    Ok(format!("agree on {}", given.with(&generated)))
}
