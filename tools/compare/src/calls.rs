//! Holds the proved calls on an evaluation to the second evaluator's book, call by
//! call.

mod code;
mod run;
mod tally;
#[cfg(test)]
pub mod tests;

use sheets::programs::calls::{fixed, random};
use tally::Tally;

pub use code::{interface, safe, Calls, Proved};
pub use run::Run;

/// A run of so many random messages must reach every call and refusal.
const MANY: u64 = 1_000;

/// Compares on the fixed list of calls and on the calls of so many random
/// messages; gives a line of what was agreed on, or the first difference.
pub fn compare(code: &impl Calls, count: u64, seed: u64) -> Result<String, String> {
    let given = check_fixed(code)?;
    let generated = check_random(code, count, seed)?;
    if count >= MANY {
        generated.complete()?;
    }
    Ok(format!(
        "agree on {} ({} given, {count} random messages of seed {seed})",
        given.with(&generated),
        given.calls()
    ))
}

fn check_fixed(code: &impl Calls) -> Result<Tally, String> {
    let mut run = Run::new(code.clone());
    for call in fixed()? {
        let checked = run.step(&call);
        checked.map_err(|fault| format!("the fixed list: {fault}"))?;
    }
    Ok(run.tally)
}

fn check_random(code: &impl Calls, count: u64, seed: u64) -> Result<Tally, String> {
    let mut run = Run::new(code.clone());
    let mut messages = random(seed);
    for index in 0..count {
        let unwritten = || format!("message {index} of seed {seed} cannot be written");
        for call in messages.next().ok_or_else(unwritten)? {
            let checked = run.step(&call);
            checked.map_err(|fault| format!("seed {seed}, message {index}: {fault}"))?;
        }
    }
    Ok(run.tally)
}
