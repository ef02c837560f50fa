//! RFC 9989, appendix B, as readings table B says it comes out.

use crate::octets::{run, tx};
use evaluator::policy::{read, rua_text, valid_entries, Policy, Request};
use evaluator::sheet::verdict;
use evaluator::txt::texts;
use evaluator::verdict::{Alignment, Verdict};
use sheets::examples::APPENDIX_B;

/// The sheet of the row whose name begins so.
fn sheet(name: &str) -> Vec<u8> {
    let mut rows = APPENDIX_B.iter().filter(|row| row.name.starts_with(name));
    let row = rows.next().expect("a row");
    assert!(rows.next().is_none(), "one row of {name}");
    row.sheet().expect("a sheet")
}

fn verdict_of(name: &str) -> Verdict {
    let (_, verdict) = verdict(&sheet(name)).expect("a verdict");
    verdict
}

#[test]
fn each_row_gives_its_output() {
    for row in APPENDIX_B {
        let sheet = row.sheet().expect("a sheet");
        assert_eq!(run(&sheet), row.output(), "{}", row.name);
        assert!(row.holds());
    }
}

#[test]
fn every_part_of_b_1_to_b_4_has_a_row() {
    for part in [
        "B.1.1, example 1",
        "B.1.1, example 2:",
        "B.1.1, example 3",
        "B.1.2, example 1",
        "B.1.2, example 2",
        "B.1.2, example 3",
        "B.2.1",
        "B.2.2",
        "B.2.3",
        "B.2.4",
        "B.2.5: subdomain, testing",
        "B.3.1",
        "B.4.1",
        "B.4.2",
        "B.4.3",
    ] {
        assert!(!sheet(part).is_empty(), "{part}");
    }
}

/// The text of a zone file entry's strings.
fn entry(strings: &[&[u8]]) -> Vec<u8> {
    let texts = texts(&tx(strings)).expect("a readable record");
    assert_eq!(texts.len(), 1);
    texts.concat()
}

#[test]
fn b_2_1_to_b_2_3_monitoring_mode() {
    let head: [&[u8]; 2] = [
        b"v=DMARC1; p=none; ",
        b"rua=mailto:dmarc-feedback@example.com",
    ];
    let with_ruf = |ruf| {
        let rua = b"rua=mailto:dmarc-feedback@example.com; ".as_slice();
        entry(&[b"v=DMARC1; p=none; ", rua, ruf])
    };
    for text in [
        entry(&head),
        with_ruf(b"ruf=mailto:auth-reports@example.com".as_slice()),
        with_ruf(b"ruf=mailto:auth-reports@thirdparty.example.net"),
    ] {
        let settings = read(&text).expect("a policy record");
        assert_eq!(settings.p, Request::Valid(Policy::None));
        assert!(settings.rua_valid);
        assert!(!settings.testing);
        assert_eq!(rua_text(&text), b"mailto:dmarc-feedback@example.com");
    }
}

#[test]
fn b_2_3_and_b_2_4_records_of_a_report_consumer() {
    let accept = read(b"v=DMARC1;").expect("a policy record");
    assert_eq!(accept.p, Request::Absent);
    let text = entry(&[
        b"v=DMARC1; ",
        b"rua=mailto:aggregate-reports@thirdparty.example.net; ",
        b"ruf=mailto:failure-reports@thirdparty.example.net",
    ]);
    let expected = b"mailto:aggregate-reports@thirdparty.example.net";
    assert_eq!(rua_text(&text), expected);
}

#[test]
fn b_2_5_multiple_uris() {
    let testing = "v=DMARC1; p=quarantine; rua=mailto:dmarc-feedback@example.com, \
                   mailto:tld-test@thirdparty.example.net; t=y";
    let rua = rua_text(testing.as_bytes());
    assert_eq!(valid_entries(rua).len(), 2);
}

#[test]
fn alignments_and_policy_domains() {
    for (name, alignments, domain) in [
        ("B.3.1", ["aligned", "aligned"], "example.com"),
        ("B.4.1", ["aligned", "aligned"], "example.com"),
        ("B.4.2", ["aligned", "aligned"], "example.com"),
        ("B.4.3", ["aligned", "not aligned"], "giant.bank.example"),
    ] {
        let verdict = verdict_of(name);
        let words = verdict.alignments.iter().copied().map(Alignment::word);
        assert_eq!(words.collect::<Vec<_>>(), alignments, "{name}");
        assert_eq!(verdict.domain, domain.as_bytes(), "{name}");
    }
}
