//! Messages by the interface. What must come out is written by hand from the
//! marked sheets of document 01.

use waslidhaj::raw::{self, State};
use waslidhaj::{calls, records, Alignment, Answer, AppliedPolicy, Disposition, DmarcResult};
use waslidhaj::{Evaluation, Existence, Kind, Outcome, Refusal, Step, Verdict, SCRATCH_OCTETS};

const E: &str = "v=DMARC1; p=reject; sp=quarantine; np=reject; aspf=s";

/// Runs an evaluation with this text under this name, all else none; gives the
/// names asked and the verdict.
fn run(evaluation: &mut Evaluation, name: &str, text: &str) -> (Vec<String>, Verdict) {
    let mut asked = Vec::new();
    let mut scratch = [0; SCRATCH_OCTETS];
    let rdata = [&[text.len() as u8], text.as_bytes()].concat();
    let bytes = records(&[rdata]).expect("a short text");
    loop {
        let own = match evaluation.next().expect("a step") {
            Step::Ask(own) => own,
            Step::Verdict(verdict) => return (asked, verdict),
        };
        let answer = match own.as_str() == name {
            true => Answer::Records(&bytes),
            false => Answer::NoRecords,
        };
        let answered = evaluation.answer(own, answer, &mut scratch);
        answered.expect("the name is asked");
        asked.push(own.to_string());
    }
}

fn open(author: &str, existence: Existence) -> Evaluation {
    Evaluation::open(author, existence, true).expect("a domain")
}

#[test]
fn marked_sheet_1() {
    let mut evaluation = open("example.com", Existence::Exists);
    let added = evaluation.add(Kind::Dkim, Outcome::Pass, "mail.example.com");
    assert_eq!(added, Ok(()));
    let (asked, verdict) = run(&mut evaluation, "_dmarc.example.com", E);
    let names = [
        "_dmarc.example.com",
        "_dmarc.com",
        "_dmarc.mail.example.com",
    ];
    assert_eq!(asked, names);
    let expected = Verdict {
        result: DmarcResult::Pass,
        policy: AppliedPolicy::Reject,
        disposition: Disposition::None,
        domain: "example.com".to_string(),
        alignments: vec![Alignment::Aligned],
        asked: 3,
    };
    assert_eq!(verdict, expected);
    assert_eq!(evaluation.result(), Ok(expected));
    let finding = evaluation.finding().expect("a verdict");
    assert!(finding.dkim && !finding.spf);
    assert_eq!(finding.domain, "example.com");
}

#[test]
fn marked_sheets_2_to_4() {
    let mut evaluation = open("example.com", Existence::Exists);
    let added = evaluation.add(Kind::Spf, Outcome::Pass, "mail.example.com");
    assert_eq!(added, Ok(()));
    let (asked, verdict) = run(&mut evaluation, "_dmarc.example.com", E);
    assert_eq!(asked.len(), 1);
    assert_eq!(verdict.disposition, Disposition::Reject);
    assert_eq!(verdict.alignments, [Alignment::NotAligned]);
    let table = [
        (
            Existence::Exists,
            DmarcResult::Fail,
            Disposition::Quarantine,
        ),
        (Existence::Missing, DmarcResult::Fail, Disposition::Reject),
        (
            Existence::NotKnown,
            DmarcResult::Temperror,
            Disposition::Defer,
        ),
    ];
    for (existence, result, disposition) in table {
        let mut evaluation = open("news.example.com", existence);
        let (asked, verdict) = run(&mut evaluation, "_dmarc.example.com", E);
        assert_eq!((asked.len(), verdict.asked), (3, 3));
        assert_eq!((verdict.result, verdict.disposition), (result, disposition));
        assert_eq!(verdict.domain, "example.com");
        assert_eq!(verdict.alignments, []);
    }
}

fn refused<T>(number: u8, place: usize) -> Result<T, Refusal> {
    Err(Refusal { number, place })
}

#[test]
fn a_refused_call_leaves_the_evaluation_as_it_was() {
    let mut evaluation = open("example.com", Existence::Exists);
    assert_eq!(evaluation.result(), refused(7, 0));
    assert_eq!(evaluation.finding(), refused(7, 0));
    evaluation.next().expect("a name");
    let before = evaluation;
    let mut scratch = [7; SCRATCH_OCTETS];
    let name = "_dmarc.example.com";
    let late = evaluation.add(Kind::Dkim, Outcome::Pass, "example.com");
    assert_eq!(late, refused(17, 0));
    assert_eq!(evaluation.open_over("a..b", 1, 1), refused(1, 2));
    assert_eq!(evaluation.open_over("a.b", 3, 1), refused(3, 255));
    let other = evaluation.answer("_dmarc.com", Answer::Error, &mut scratch);
    assert_eq!(other, refused(5, 0));
    let unreadable = evaluation.answer(name, Answer::Records(b"TX\0"), &mut scratch);
    assert_eq!(unreadable, refused(6, 0));
    let short = evaluation.answer(name, Answer::NoRecords, &mut scratch[1..]);
    assert_eq!(short, refused(10, SCRATCH_OCTETS));
    assert!(evaluation == before && scratch == [7; SCRATCH_OCTETS]);
    // The name still stands.
    assert_eq!(evaluation.answer(name, Answer::Error, &mut scratch), Ok(()));
    let verdict = evaluation.result().expect("the verdict");
    assert_eq!(verdict.result, DmarcResult::Temperror);
    assert_eq!(verdict.policy, AppliedPolicy::Unknown);
    assert_eq!(verdict.domain, "");
    let field = evaluation.field(&mut scratch);
    assert_eq!(field, refused(9, 0));
}

#[test]
fn nothing_opened() {
    let mut evaluation = Evaluation::default();
    assert_eq!(evaluation.next(), refused(7, 0));
    let added = evaluation.add_by_numbers(9, 9, b"\xff");
    assert_eq!(added, refused(17, 0));
    assert_eq!(Evaluation::from_raw(*evaluation.raw()), evaluation);
    assert_eq!(Evaluation::open_by_numbers("", 1, 1), refused(1, 0));
    let Err(refusal) = Evaluation::open_by_numbers("a", 1, 2) else {
        panic!("accepted");
    };
    assert_eq!(refusal.to_string(), "refused 3 at 255");
    assert_eq!(refusal.meaning(), "a number that is not listed");
}

/// Without a verdict its numbers are temperror, unknown and defer, whatever the
/// call was.
#[test]
fn no_verdict_is_defer() {
    let opened = calls::open(State::ZEROS, b"example.com", 1, 1);
    let asked = calls::next(opened.state);
    let given = [
        calls::open(State::ZEROS, b"news..example.com", 1, 1).given,
        opened.given,
        calls::add(opened.state, 1, 1, b"a..b").given,
        asked.given,
        calls::answer(asked.state, b"_dmarc.example.com", 1, b"", &mut []).given,
        calls::result(asked.state),
        calls::field(asked.state, &mut []),
    ];
    let kinds = given.map(|given| given.kind);
    assert_eq!(kinds, [3, 0, 3, 1, 3, 3, 3]);
    for verdict in given.map(|given| given.verdict) {
        assert_eq!(
            (verdict.result, verdict.policy, verdict.disposition),
            (3, 3, 3)
        );
        assert_eq!(verdict, raw::Verdict::default());
    }
}
