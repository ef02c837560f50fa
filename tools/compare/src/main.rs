//! Compares the proved evaluator with the second one, sheet by sheet and call by
//! call, the proved checks of report addresses, call by call, the proved daily rows
//! with the second evaluator's, history by history, the proved aggregate reports, day
//! by day, the proved writer and reader of policy records, record by record, and the
//! proved reader of the Identity-Alignment field, field by field.

#![forbid(unsafe_code)]

mod addresses;
mod agreement;
mod alike;
mod beside;
mod calls;
mod cases;
mod checks;
mod domains;
mod fields;
mod histories;
mod processor;
mod program;
mod publishing;
mod received;
mod received_time;
mod refused;
mod report_time;
mod reports;
mod states;
mod time;
mod timing;
mod vectors;
#[cfg(test)]
mod wrongs;

use std::process::ExitCode;

use agreement::{same, Checker};
use cases::Case;
use evaluator::sheet;
use sheets::command;
use sheets::generate::SheetKind;
use sheets::tally::Tally;

const USAGE: &str = "usage:
  compare sheets ORDINARY HOSTILE SEED
  compare program PATH COUNT SEED
  compare calls COUNT SEED
  compare states COUNT SEED
  compare addresses COUNT SEED
  compare checks COUNT SEED
  compare vectors
  compare histories COUNT SEED
  compare reports COUNT SEED
  compare received COUNT SEED
  compare records COUNT SEED
  compare fields COUNT SEED
  compare time COUNT SEED
  compare timing COUNT
  compare report-time COUNT
  compare received-time COUNT";

fn main() -> ExitCode {
    command::run(|words| match words {
        ["sheets", ordinary, hostile, seed] => compare_sheets([ordinary, hostile, seed]),
        ["program", path, count, seed] => compare_program(path, [count, seed]),
        ["calls", count, seed] => compare_calls([count, seed]),
        ["states", count, seed] => compare_states([count, seed]),
        ["addresses", count, seed] => compare_addresses([count, seed]),
        ["checks", count, seed] => compare_checks([count, seed]),
        ["vectors"] => compare_vectors(),
        ["histories", count, seed] => compare_histories([count, seed]),
        ["reports", count, seed] => compare_reports([count, seed]),
        ["received", count, seed] => compare_received([count, seed]),
        ["records", count, seed] => compare_records([count, seed]),
        ["fields", count, seed] => compare_fields([count, seed]),
        ["time", count, seed] => print_times([count, seed]),
        ["timing", count] => print_timing([count]),
        ["report-time", count] => print_report_time([count]),
        ["received-time", count] => print_received_time([count]),
        _ => Err(USAGE.to_string()),
    })
}

fn numbers<const N: usize>(words: [&str; N]) -> Result<[u64; N], String> {
    let mut numbers = [0; N];
    for (number, word) in numbers.iter_mut().zip(words) {
        *number = word.parse().map_err(|_| format!("`{word}` is no number"))?;
    }
    Ok(numbers)
}

/// How many generated sheets of each kind, and their seed.
struct Asked {
    ordinary: u64,
    hostile: u64,
    seed: u64,
}

/// Sheets written by hand, those of walks, long ones, and the generated ones.
fn all_cases(asked: &Asked) -> Result<impl Iterator<Item = Case>, String> {
    let ordinary = cases::generated(SheetKind::Ordinary, asked.seed, asked.ordinary);
    let hostile = cases::generated(SheetKind::Hostile, asked.seed, asked.hostile);
    let by_hand = cases::written()?.into_iter().chain(cases::walks()?);
    let given = by_hand.chain(cases::long(asked.seed));
    Ok(given.chain(ordinary).chain(hostile))
}

fn print_agreement(asked: &Asked, tally: &Tally) {
    let given = tally.sheets - asked.ordinary - asked.hostile;
    println!(
        "agree on {} sheets ({given} given, {} ordinary and {} hostile of seed {}): {}",
        tally.sheets,
        asked.ordinary,
        asked.hostile,
        asked.seed,
        tally.endings()
    );
}

/// Both evaluators in this process.
fn compare_sheets(words: [&str; 3]) -> Result<(), String> {
    let [ordinary, hostile, seed] = numbers(words)?;
    let asked = Asked {
        ordinary,
        hostile,
        seed,
    };
    let mut checker = Checker::new(waslidhaj::calls::run);
    for case in all_cases(&asked)? {
        let checked = checker.check(&case.sheet);
        checked.map_err(|fault| fault.report(&case.origin, &case.sheet))?;
    }
    print_agreement(&asked, &checker.tally);
    Ok(())
}

/// The proved evaluator as a program.
fn compare_program(path: &str, words: [&str; 2]) -> Result<(), String> {
    let [count, seed] = numbers(words)?;
    let asked = Asked {
        ordinary: count.div_ceil(2),
        hostile: count / 2,
        seed,
    };
    let mut tally = Tally::default();
    for case in all_cases(&asked)? {
        let expected = sheet::run(&case.sheet);
        let printed = program::output(path, &case.sheet)?;
        let checked = same(&printed, &expected);
        checked.map_err(|fault| fault.report(&case.origin, &case.sheet))?;
        tally.add(&String::from_utf8_lossy(&expected));
    }
    print_agreement(&asked, &tally);
    Ok(())
}

/// Lists of calls by both, in this process.
fn compare_calls(words: [&str; 2]) -> Result<(), String> {
    let [count, seed] = numbers(words)?;
    println!(
        "{}",
        calls::compare(&calls::Proved::default(), count, seed)?
    );
    Ok(())
}

/// Calls on states that no call gave, in this process.
fn compare_states(words: [&str; 2]) -> Result<(), String> {
    let [count, seed] = numbers(words)?;
    let line = states::compare(&states::Proved, calls::Proved::from, count, seed)?;
    println!("{line}");
    Ok(())
}

/// Lists of calls of address checks by both, in this process.
fn compare_addresses(words: [&str; 2]) -> Result<(), String> {
    let [count, seed] = numbers(words)?;
    let line = addresses::compare(&addresses::Proved::default(), count, seed)?;
    println!("{line}");
    Ok(())
}

/// Calls on address checks that no call gave, in this process.
fn compare_checks(words: [&str; 2]) -> Result<(), String> {
    let [count, seed] = numbers(words)?;
    let line = checks::compare(&checks::Proved, addresses::Proved::from, count, seed)?;
    println!("{line}");
    Ok(())
}

/// Single cases by both, in this process.
fn compare_vectors() -> Result<(), String> {
    let (calls, records) = (calls::Proved::default(), records::code::Proved);
    let line = vectors::compare(&calls, &records, vectors::proved_name)?;
    println!("{line}");
    Ok(())
}

/// The daily rows of both, in this process.
fn compare_histories(words: [&str; 2]) -> Result<(), String> {
    let [count, seed] = numbers(words)?;
    println!("{}", histories::compare(&histories::Proved, count, seed)?);
    Ok(())
}

/// Aggregate reports and subjects by both, in this process.
fn compare_reports(words: [&str; 2]) -> Result<(), String> {
    let [count, seed] = numbers(words)?;
    println!("{}", reports::compare(&histories::Proved, count, seed)?);
    Ok(())
}

/// Reports read by both, in this process.
fn compare_received(words: [&str; 2]) -> Result<(), String> {
    let [count, seed] = numbers(words)?;
    let line = received::compare(&received::Proved::default(), count, seed)?;
    println!("{line}");
    Ok(())
}

/// Policy records by both, in this process.
fn compare_records(words: [&str; 2]) -> Result<(), String> {
    let [count, seed] = numbers(words)?;
    println!(
        "{}",
        publishing::compare(&records::code::Proved, count, seed)?
    );
    Ok(())
}

/// The Identity-Alignment field read by both, in this process.
fn compare_fields(words: [&str; 2]) -> Result<(), String> {
    let [count, seed] = numbers(words)?;
    let reader = records::field::code::proved;
    let line = fields::compare(reader, fields::proved_writer, count, seed)?;
    println!("{line}");
    Ok(())
}

fn print_times(words: [&str; 2]) -> Result<(), String> {
    let [count, seed] = numbers(words)?;
    time::print(count, seed);
    Ok(())
}

/// The time of the proved calls on single messages.
fn print_timing(words: [&str; 1]) -> Result<(), String> {
    let [count] = numbers(words)?;
    timing::print(count)
}

/// The time of the proved report.
fn print_report_time(words: [&str; 1]) -> Result<(), String> {
    let [count] = numbers(words)?;
    report_time::print(count)
}

/// The time of the proved reader of reports.
fn print_received_time(words: [&str; 1]) -> Result<(), String> {
    let [count] = numbers(words)?;
    received_time::print(count)
}
