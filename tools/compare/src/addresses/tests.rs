//! The check sees every rule that is broken, and the calls come to it.

pub mod twin;

use super::check::Run;
use super::tally::Tally;
use super::{check_fixed, check_random, compare};
use evaluator::address::{Outcome, Verdict};
use evaluator::refusal::Refusal;
use evaluator::txt::Status;
use sheets::programs::calls::AnswerCall;
use sheets::programs::checks::{Call, StartCall, Told};
use twin::{Twin, Wrong, ALL};

const SEED: u64 = 5;

#[test]
fn calls_that_keep_the_rules() {
    let line = compare(&Twin::new(Wrong::Nothing), 1_000, SEED).expect("agreement");
    println!("{line}");
    assert!(line.starts_with("agree on "), "{line}");
    for number in [5, 6, 7, 10, 11, 23] {
        assert!(line.contains(&format!(" refused {number}")), "{line}");
        assert!(!line.contains(&format!(" 0 refused {number}")), "{line}");
    }
}

#[test]
fn every_broken_rule_is_found_by_the_calls_written_by_hand() {
    for wrong in ALL.iter().copied() {
        let Err(fault) = check_fixed(&Twin::new(wrong)) else {
            panic!("{wrong:?} is not found");
        };
        assert!(fault.starts_with("the calls by hand: "), "{fault}");
        assert!(fault.contains("\n-- the calls\n"), "{fault}");
    }
}

#[test]
fn every_broken_rule_is_found_by_random_checks() {
    for wrong in ALL.iter().copied() {
        let Err(fault) = check_random(&Twin::new(wrong), 1_000, SEED) else {
            panic!("{wrong:?} is not found");
        };
        println!("{wrong:?}: {}", fault.lines().next().unwrap_or_default());
        assert!(fault.starts_with("seed 5, check "), "{fault}");
    }
}

fn start(policy: &[u8], entry: &[u8]) -> Call {
    Call::Start(StartCall::new(policy, entry))
}

fn records(name: &[u8], bytes: &[u8]) -> Call {
    Call::Answer(AnswerCall {
        status: Status::Records,
        bytes: bytes.to_vec(),
        ..AnswerCall::none(name)
    })
}

#[test]
fn a_fault_is_reported_with_its_calls() {
    let mut run = Run::new(Twin::new(Wrong::HostFirst));
    for call in [
        start(b"c", b"mailto:x@c"),
        start(b"d", b"mailto:x@d"),
        start(b"a", b"mailto:x@b"),
    ] {
        assert_eq!(run.step(&call), Ok(Told::Accepted));
    }
    let report = run.step(&Call::Next).expect_err("another name");
    let expected = "the answers differ
-- the proved code
ask _dmarc.b
-- the reference
ask _dmarc.a
-- the calls
start \"d\" \"mailto:x@d\"
start \"a\" \"mailto:x@b\"
next
";
    assert_eq!(report, expected);
}

#[test]
fn a_refused_call_that_changes_the_check() {
    let mut run = Run::new(Twin::new(Wrong::RefusedStartCloses));
    assert_eq!(run.step(&start(b"a", b"mailto:x@b")), Ok(Told::Accepted));
    let report = run.step(&start(b"a", b"x")).expect_err("a change");
    let what = "refused 23 at 0, and yet the check was changed\n";
    assert!(report.starts_with(what), "{report}");
}

#[test]
fn memory_behind_the_texts() {
    let mut run = Run::new(Twin::new(Wrong::WritesPastTheTexts));
    for call in [start(b"a", b"mailto:x@b"), Call::Next] {
        assert!(run.step(&call).is_ok());
    }
    let report = run.step(&records(b"_dmarc.a", b"TX\0\x02\x01z"));
    let rest = "ff".repeat(39);
    let what = format!(
        "the lent memory differs at octet 1\n\
         -- the proved code\n00{rest}\n-- the reference\nff{rest}\n-- the calls\n"
    );
    let report = report.expect_err("memory");
    assert!(report.starts_with(&what), "{report}");
}

/// A text that takes the address's place, at its place in the scratch.
#[test]
fn a_text_in_the_scratch() {
    let mut run = Run::new(Twin::new(Wrong::Nothing));
    let bytes = b"TX\0\x04\x03abcTX\0\x18\x17v=DMARC1;rua=mailto:y@b";
    for call in [
        start(b"a", b"mailto:x@b"),
        Call::Next,
        Call::Answer(AnswerCall::none(b"_dmarc.a")),
        Call::Next,
        Call::Answer(AnswerCall::none(b"_dmarc.b")),
        Call::Next,
        records(b"a._report._dmarc.b", bytes),
    ] {
        assert!(run.step(&call).is_ok(), "{call}");
    }
    let outcome = Outcome::Replaced {
        begin: 16,
        length: 10,
    };
    let verdict = Verdict { outcome, asked: 3 };
    assert_eq!(run.step(&Call::Result), Ok(Told::Verdict(verdict)));
}

#[test]
fn a_call_outcome_or_refusal_that_never_came() {
    let mut tally = Tally::default();
    let said = |tally: &Tally| tally.complete().expect_err("nothing came");
    assert_eq!(said(&tally), "no call start in 0 calls");
    let answer = Call::Answer(AnswerCall::none(b"a"));
    for call in [start(b"a", b"b"), Call::Next, answer, Call::Result] {
        tally.add(&call, &Told::Accepted);
    }
    assert_eq!(said(&tally), "no name in 4 calls");
    tally.add(&Call::Next, &Told::Ask(Vec::new()));
    let (begin, length) = (0, 0);
    for (outcome, next) in [
        (Outcome::NotKnown, "outcome no"),
        (Outcome::No, "outcome inside"),
        (Outcome::Inside, "outcome confirmed"),
        (Outcome::Confirmed, "outcome replaced"),
        (Outcome::Replaced { begin, length }, "refusal 5"),
    ] {
        let verdict = Verdict { outcome, asked: 0 };
        tally.add(&Call::Next, &Told::Verdict(verdict));
        assert!(said(&tally).starts_with(&format!("no {next} in ")));
    }
    for number in [5, 6, 7, 10, 11, 23] {
        assert!(said(&tally).starts_with(&format!("no refusal {number} in ")));
        tally.add(&Call::Next, &Told::Refused(Refusal::new(number, 0)));
    }
    assert_eq!(tally.complete(), Ok(()));
}

/// How many of 2,000 random checks come to each outcome.
#[test]
fn the_checks_come_to_every_outcome() {
    for seed in [1, SEED] {
        let tally = check_random(&Twin::new(Wrong::Nothing), 2_000, seed).expect("agreement");
        println!("seed {seed}: {tally}");
        for word in ["not known", "no", "inside", "confirmed", "replaced"] {
            assert!(tally.outcome(word) >= 150, "{word}: {tally}");
        }
    }
}
