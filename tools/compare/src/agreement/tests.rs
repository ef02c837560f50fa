//! The check that holds another evaluator to the second one sees each kind of
//! fault.

use super::Checker;
use evaluator::sheet;
use sheets::description::describe;
use sheets::generate::{hostile, ordinary};
use sheets::programs::messages::messages;

/// An evaluator that keeps the promise.
fn good(octets: &[u8], out: &mut [u8]) -> usize {
    let text = sheet::run(octets);
    if let Some(room) = out.get_mut(..text.len()) {
        room.copy_from_slice(&text);
    }
    text.len()
}

#[test]
fn an_evaluator_that_keeps_the_promise() {
    let mut checker = Checker::new(good);
    for message in messages().expect("sheets") {
        assert_eq!(checker.check(&message.sheet), Ok(()), "{}", message.name);
    }
    for index in 0..300 {
        assert_eq!(checker.check(&ordinary(31, index)), Ok(()));
        assert_eq!(checker.check(&hostile(31, index)), Ok(()));
    }
    let tally = &checker.tally;
    let ended: u64 = tally.results.values().chain(tally.refusals.values()).sum();
    assert_eq!(tally.sheets, ended);
    assert!(tally.sheets > 600);
    assert!(tally.endings().contains("refused 8 "));
}

/// A sheet of example.com, with no answers.
const SHEET: &[u8] = b"AU\x00\x0d\x01\x01example.com";

/// What the check says of an evaluator on its first sheet.
fn said(run: impl FnMut(&[u8], &mut [u8]) -> usize) -> &'static str {
    let mut checker = Checker::new(run);
    let fault = checker.check(SHEET).expect_err("a fault");
    assert!(fault.expected.starts_with(b"ask _dmarc.example.com"));
    let report = fault.report("this one", SHEET);
    assert!(report.starts_with(&format!("this one: {}\n", fault.what)));
    assert!(report.ends_with(&describe(SHEET)));
    fault.what
}

#[test]
fn evaluators_that_break_the_promise() {
    let other = |octets: &[u8], out: &mut [u8]| {
        let length = good(octets, out);
        out[length - 2] ^= 1;
        length
    };
    assert_eq!(said(other), "the outputs differ");
    let shorter = |octets: &[u8], out: &mut [u8]| good(octets, out) - 1;
    assert_eq!(said(shorter), "the outputs differ");
    let endless = |_: &[u8], _: &mut [u8]| usize::MAX;
    assert_eq!(said(endless), "the length is past every output's");
    let past = |octets: &[u8], out: &mut [u8]| {
        let length = good(octets, out);
        if let Some(octet) = out.get_mut(length + 9) {
            *octet ^= 1;
        }
        length
    };
    assert_eq!(said(past), "octets past the text's end were written");
}

#[test]
fn evaluators_that_break_the_promise_on_an_output_too_short() {
    let zero = |octets: &[u8], out: &mut [u8]| {
        let length = good(octets, out);
        if out.len() < length {
            return 0;
        }
        length
    };
    assert_eq!(said(zero), "another length for an output too short");
    let partly = |octets: &[u8], out: &mut [u8]| {
        let text = sheet::run(octets);
        let room = out.len().min(text.len());
        out[..room].copy_from_slice(&text[..room]);
        text.len()
    };
    assert_eq!(said(partly), "octets of an output too short were written");
}
