//! Holds the proved reader of aggregate reports (Ask 10 of document 02) to the second
//! evaluator's, text by text and part by part.

mod arrival;
mod check;
mod code;
mod edges;
mod generate;
mod odd;
mod tally;
#[cfg(test)]
mod tests;
mod written;

use arrival::{arrivals, cuts, halves, Arrival};
use check::{check, check_written};
use code::Code;
use sheets::random::Random;
use tally::Tally;
use written::Written;

use crate::reports::{day, days, Day};

pub use code::Proved;
#[cfg(test)]
pub use odd::PLAIN;

/// A run of so many generated texts must reach every answer.
const MANY: u64 = 1_000;
/// One generated day is read back for so many texts.
const TEXTS_OF_DAY: u64 = 10;
/// The reports of so many of these days are cut in two at each place.
const HALVED: u64 = 20;

/// Compares on the texts written by hand and on generated ones; gives a line of what was
/// agreed on, or the first difference.
pub fn compare(code: &impl Code, count: u64, seed: u64) -> Result<String, String> {
    let mut given = Tally::default();
    for (name, text) in odd::texts() {
        let checked = check_all(code, &text, &mut Random::of(seed, 0), &mut given);
        checked.map_err(|fault| format!("{name}: {fault}"))?;
    }
    for (number, text) in odd::changed().iter().enumerate() {
        let checked = check(code, text, &Arrival::uncut(text.len()), &mut given);
        checked.map_err(|fault| format!("a changed report, {number}: {fault}"))?;
    }
    check_days(code, count / TEXTS_OF_DAY, seed, &mut given)?;
    let mut generated = Tally::default();
    for index in 0..count {
        let checked = check_generated(code, seed, index, &mut generated);
        checked.map_err(|fault| format!("seed {seed}, index {index}: {fault}"))?;
    }
    if count >= MANY {
        generated.complete()?;
    }
    Ok(format!("agree on {}", given.with(&generated)))
}

/// The reports of the days of `reports`, those written by hand and those of a seed.
fn check_days(code: &impl Code, count: u64, seed: u64, tally: &mut Tally) -> Result<(), String> {
    let given = days()
        .into_iter()
        .map(|(name, day)| (format!("the day {name}"), day));
    let generated = (0..count).map(|index| {
        let name = format!("seed {seed}, the day {index}");
        (name, day(seed, index))
    });
    let mut random = Random::of(seed, 0);
    for (name, day) in given.chain(generated) {
        let checked = check_day(code, &day, &mut random, tally);
        checked.map_err(|fault| format!("{name}: {fault}"))?;
    }
    Ok(())
}

/// The report of a day, if it can be written.
fn check_day(
    code: &impl Code,
    day: &Day,
    random: &mut Random,
    tally: &mut Tally,
) -> Result<(), String> {
    let Some(written) = Written::of(day)? else {
        return Ok(());
    };
    let length = written.text.len();
    let mut ways = cuts(random, length);
    if tally.written < HALVED {
        ways.extend(halves(length));
    }
    check_written(code, &written, ways, tally)
}

/// The text of a seed and index, and the written one that it comes from.
fn check_generated(
    code: &impl Code,
    seed: u64,
    index: u64,
    tally: &mut Tally,
) -> Result<(), String> {
    let (text, written) = generate::text(seed, index)?;
    if let Some(written) = written {
        let uncut = Arrival::uncut(written.text.len());
        check_written(code, &written, [uncut], tally)?;
    }
    check_all(code, &text, &mut Random::of(!seed, index), tally)
}

/// A text in all the ways in which it arrives.
fn check_all(
    code: &impl Code,
    text: &[u8],
    random: &mut Random,
    tally: &mut Tally,
) -> Result<(), String> {
    tally.texts += 1;
    let mut ways = arrivals(random, text.len()).into_iter();
    ways.try_for_each(|arrival| check(code, text, &arrival, tally))
}
