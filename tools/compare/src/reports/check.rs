//! One day by both.

use super::code::{Asked, Code, Told};
use super::day::Day;
use super::tally::{Tally, Writer};
use crate::alike::alike;
use crate::beside::Beside;
use crate::histories::agreement::{self, Left};
use evaluator::aggregate::{self, Inputs, MOST_OCTETS};
use evaluator::refusal::Refusal;
use evaluator::report;
use records::code::settings;

/// Octets lent beyond what is needed, and where nothing can be written.
const SPARE: usize = 40;
/// More octets than any subject has.
const MOST_SUBJECT: usize = 700;

/// What is to be written, whatever memory is lent.
type Text = Result<Vec<u8>, Refusal>;

/// Checks the code on one day; the error has the day.
pub fn check(code: &impl Code, day: &Day, tally: &mut Tally) -> Result<(), String> {
    let left = agreement::check(code, &day.history, &mut tally.histories)?;
    let fault =
        |what: &'static str| move |fault: String| format!("{what}: {fault}\n-- the day\n{day}");
    check_report(code, day, &left, tally).map_err(fault("the report"))?;
    check_subject(code, day, tally).map_err(fault("the subject"))
}

/// What the second evaluator writes a day's report from.
pub fn inputs<'a>(day: &'a Day, left: &'a Left, beside: &'a Beside) -> Inputs<'a> {
    Inputs {
        list: &left.expected_list,
        rows: &left.expected_rows,
        lists: beside.given(),
        settings: settings(day.numbers, false),
        reporter: day.reporter.given(),
    }
}

/// What the code writes it from.
pub fn asked<'a>(day: &'a Day, left: &'a Left, beside: &'a Beside) -> Asked<'a> {
    Asked {
        list: left.list,
        rows: &left.rows,
        lists: beside.lent(),
        numbers: day.numbers,
        reporter: day.reporter.lent(),
    }
}

fn check_report(code: &impl Code, day: &Day, left: &Left, tally: &mut Tally) -> Result<(), String> {
    let beside = day.lists();
    let expected = aggregate::text(&inputs(day, left, &beside));
    let asked = asked(day, left, &beside);
    for size in sizes(&expected).into_iter().chain(longest(&expected)) {
        let code = |out: &mut [u8]| code.report(&asked, out);
        let (told, _) = alike(size, code, |out| lent(&expected, out))?;
        tally.add(Writer::Report, told);
    }
    Ok(())
}

fn check_subject(code: &impl Code, day: &Day, tally: &mut Tally) -> Result<(), String> {
    let mut text = vec![0; MOST_SUBJECT];
    let written = report::subject(&day.subject.given(), &mut text);
    let expected = written.map(|length| text.get(..length).unwrap_or_default().to_vec());
    for size in sizes(&expected) {
        let code = |out: &mut [u8]| code.subject(&day.subject, out);
        let (told, _) = alike(size, code, |out| lent(&expected, out))?;
        tally.add(Writer::Subject, told);
    }
    Ok(())
}

/// Memory that is just enough, one octet too short, empty, and longer than is needed.
fn sizes(expected: &Text) -> Vec<usize> {
    match expected {
        Ok(text) => vec![text.len(), text.len() - 1, 0, text.len() + SPARE],
        Err(_) => vec![0, SPARE],
    }
}

/// Memory for the longest report, in which a report is not counted before it is written:
/// for one report in eight, by its length.
fn longest(expected: &Text) -> Option<usize> {
    let text = expected.as_ref().ok()?;
    (text.len() % 8 == 0).then_some(MOST_OCTETS)
}

/// What the second evaluator gives for memory of this size.
fn lent(expected: &Text, out: &mut [u8]) -> Told {
    let text = expected.as_ref().map_err(|refusal| *refusal);
    Told(text.and_then(|text| report::lend(text, out)))
}
