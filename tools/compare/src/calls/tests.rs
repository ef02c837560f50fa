//! The check sees every rule that is broken, and the calls come to it.

pub mod twin;

use super::run::Run;
use super::tally::Tally;
use super::{check_fixed, check_random, compare};
use evaluator::refusal::Refusal;
use sheets::programs::calls::{AnswerCall, Call, OpenCall, Told};
use twin::{Twin, Wrong, ALL};

const SEED: u64 = 5;

#[test]
fn calls_that_keep_the_rules() {
    let line = compare(&Twin::new(Wrong::Nothing), 1_000, SEED).expect("agreement");
    assert!(line.starts_with("agree on "), "{line}");
    for number in [1, 2, 3, 4, 5, 6, 7, 9, 10, 17] {
        assert!(line.contains(&format!(" refused {number}")), "{line}");
        assert!(!line.contains(&format!(" 0 refused {number}")), "{line}");
    }
}

#[test]
fn every_broken_rule_is_found_by_the_fixed_list() {
    for wrong in ALL.iter().copied() {
        let Err(fault) = check_fixed(&Twin::new(wrong)) else {
            panic!("{wrong:?} is not found");
        };
        assert!(fault.starts_with("the fixed list: "), "{fault}");
        assert!(fault.contains("\n-- the calls\n"), "{fault}");
    }
}

#[test]
fn every_broken_rule_is_found_by_random_messages() {
    for wrong in ALL.iter().copied() {
        let Err(fault) = check_random(&Twin::new(wrong), 500, SEED) else {
            panic!("{wrong:?} is not found");
        };
        println!("{wrong:?}: {}", fault.lines().next().unwrap_or_default());
        assert!(fault.starts_with("seed 5, message "), "{fault}");
    }
}

fn open(author: &[u8]) -> Call {
    Call::Open(OpenCall::of(author))
}

#[test]
fn a_fault_is_reported_with_its_calls() {
    let mut run = Run::new(Twin::new(Wrong::TimeoutIsNone));
    let timeout = Call::Answer(AnswerCall {
        status: evaluator::txt::Status::Error,
        ..AnswerCall::none(b"_dmarc.example.com")
    });
    let calls = [
        open(b"a"),
        open(b"b"),
        open(b"example.com"),
        Call::Next,
        timeout,
    ];
    for call in &calls {
        assert!(run.step(call).is_ok());
    }
    let report = run.step(&Call::Next).expect_err("another step");
    let expected = "the answers differ
-- the proved code
ask _dmarc.com
-- the reference
verdict temperror policy=unknown disposition=defer domain= alignments= count=1
-- the calls
open \"b\" existence=1 support=1
open \"example.com\" existence=1 support=1
next
answer \"_dmarc.example.com\" status=2 \"\" scratch of 4096
next
";
    assert_eq!(report, expected);
}

#[test]
fn a_refused_call_that_changes_the_evaluation() {
    let mut run = Run::new(Twin::new(Wrong::RefusedOpeningCloses));
    assert_eq!(run.step(&open(b"example.com")), Ok(Told::Accepted));
    let report = run.step(&open(b"..")).expect_err("a change");
    let what = "refused 1 at 0, and yet the evaluation was changed\n";
    assert!(report.starts_with(what), "{report}");
}

#[test]
fn memory_behind_the_text() {
    let mut run = Run::new(Twin::new(Wrong::WritesPastTheTexts));
    for call in [open(b"example.com"), Call::Next] {
        assert!(run.step(&call).is_ok());
    }
    let record = Call::Answer(AnswerCall {
        status: evaluator::txt::Status::Records,
        bytes: b"TX\0\x02\x01a".to_vec(),
        ..AnswerCall::none(b"_dmarc.example.com")
    });
    let report = run.step(&record).expect_err("memory");
    let rest = "ff".repeat(39);
    let what = format!(
        "the lent memory differs at octet 1\n\
         -- the proved code\n00{rest}\n-- the reference\nff{rest}\n-- the calls\n"
    );
    assert!(report.starts_with(&what), "{report}");
}

#[test]
fn a_call_or_refusal_that_never_came() {
    let mut tally = Tally::default();
    let said = |tally: &Tally| tally.complete().expect_err("nothing came");
    assert_eq!(said(&tally), "no call open in 0 calls");
    let others = [Call::Result, Call::Field { size: 0 }, Call::Finding];
    for call in [open(b"a"), Call::Next].iter().chain(&others) {
        tally.add(call, &Told::Accepted);
    }
    assert_eq!(said(&tally), "no call add in 5 calls");
    let answer = Call::Answer(AnswerCall::none(b"a"));
    let added = sheets::programs::calls::AddCall::new(0, 0, b"a");
    for call in [answer, Call::Add(added)] {
        tally.add(&call, &Told::Accepted);
    }
    assert_eq!(said(&tally), "no name in 7 calls");
    tally.add(&Call::Next, &Told::Ask(Vec::new()));
    assert_eq!(said(&tally), "no refusal 1 in 8 calls");
    tally.add(&open(b""), &Told::Refused(Refusal::new(1, 0)));
    assert_eq!(said(&tally), "no refusal 2 in 9 calls");
}
