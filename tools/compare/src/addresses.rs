//! Holds the proved calls of an address check (Ask 11 of document 02) to the second
//! evaluator's book, call by call.

mod check;
mod code;
mod tally;
#[cfg(test)]
pub mod tests;

use sheets::programs::checks::{fixed, random};
use tally::Tally;

pub use check::Run;
pub use code::{interface, Checks, Proved};

/// A run of so many random checks must reach every call, outcome and refusal.
const MANY: u64 = 1_000;

/// Compares on the calls written by hand and on those of so many random checks;
/// gives a line of what was agreed on, or the first difference.
pub fn compare(code: &impl Checks, count: u64, seed: u64) -> Result<String, String> {
    let given = check_fixed(code)?;
    let generated = check_random(code, count, seed)?;
    if count >= MANY {
        generated.complete()?;
    }
    Ok(format!(
        "agree on {} ({} by hand, {count} random checks of seed {seed})",
        given.with(&generated),
        given.calls()
    ))
}

fn check_fixed(code: &impl Checks) -> Result<Tally, String> {
    let mut run = Run::new(code.clone());
    for call in fixed() {
        let checked = run.step(&call);
        checked.map_err(|fault| format!("the calls by hand: {fault}"))?;
    }
    Ok(run.tally)
}

fn check_random(code: &impl Checks, count: u64, seed: u64) -> Result<Tally, String> {
    let mut run = Run::new(code.clone());
    for (index, calls) in (0..count).zip(random(seed)) {
        for call in calls {
            let checked = run.step(&call);
            checked.map_err(|fault| format!("seed {seed}, check {index}: {fault}"))?;
        }
    }
    Ok(run.tally)
}
