//! Explanations: the reasons that document 01 gives for what comes out.

use crate::octets::{au, run};
use sheets::description::make;
use sheets::examples::MARKED;
use sheets::explain::explain;
use sheets::generate::{hostile, ordinary};
use sheets::handed::Handed;
use sheets::programs::messages::messages;

pub fn sheet(description: &str) -> Vec<u8> {
    make(description.as_bytes()).expect("a sheet")
}

/// The explanation's lines below its head.
pub fn lines(sheet: &[u8]) -> Vec<String> {
    let text = explain(&Handed::sheet_of("a", sheet));
    let body = text.strip_prefix("-- why\n").expect("the head line");
    assert!(body.ends_with('\n'));
    body.lines().map(String::from).collect()
}

fn marked(name: &str) -> Vec<String> {
    let row = MARKED.iter().find(|row| row.name == name).expect("a row");
    lines(&row.sheet().expect("a sheet"))
}

#[test]
fn marked_sheet_1() {
    let expected = [
        "author domain: example.com exists; other analysis supports rejecting",
        "policy record: at example.com, the author domain's own",
        "  text: \"v=DMARC1; p=reject; sp=quarantine; np=reject; aspf=s\"",
        "author's organizational domain: example.com",
        "identifier 0: DKIM pass mail.example.com",
        "  aligned: its organizational domain is the author's, example.com",
        "policy reject: p is reject, in the author domain's own record",
        "result pass: an identifier is aligned",
        "disposition none: always, where the result is pass",
    ];
    assert_eq!(marked("1"), expected);
}

#[test]
fn marked_sheet_2_without_support() {
    let expected = [
        "author domain: example.com exists; other analysis does not support rejecting",
        "policy record: at example.com, the author domain's own",
        "  text: \"v=DMARC1; p=reject; sp=quarantine; np=reject; aspf=s\"",
        "author's organizational domain: not needed",
        "identifier 0: SPF pass mail.example.com",
        "  not aligned: not the author domain, and the record asks for strict mode",
        "policy reject: p is reject, in the author domain's own record",
        "result fail: no identifier is aligned",
        "disposition quarantine: the policy is reject, but rejecting is not supported",
    ];
    assert_eq!(marked("2, support 0"), expected);
}

/// Lines that must be among those of a marked sheet.
const MARKED_LINES: &[(&str, &str)] = &[
    (
        "2",
        "disposition reject: the policy, since the result is fail",
    ),
    (
        "3",
        "policy record: at example.com, that of the author's organizational domain",
    ),
    (
        "3",
        "policy quarantine: sp is quarantine, for a domain that exists",
    ),
    ("3", "result fail: there is no identifier"),
    (
        "4, existence 0",
        "policy reject: np is reject, for a domain that does not exist",
    ),
    (
        "4, existence 2",
        "policy unknown: sp is quarantine for a domain that exists, \
         np is reject for one that does not, and existence is not known",
    ),
    (
        "4, existence 2",
        "result temperror: no identifier is aligned, but the policy is unknown",
    ),
    (
        "5",
        "policy record: not known; the author's walk ended in an error at example.com \
         (its lookup failed)",
    ),
    (
        "5",
        "author's organizational domain: not known; the walk ended in an error at example.com \
         (its lookup failed)",
    ),
    (
        "5",
        "disposition defer: always, where the result is temperror",
    ),
    (
        "6",
        "policy record: at example, the one with psd=y; the organizational domain has none",
    ),
    ("6", "author's organizational domain: shop.example"),
    (
        "7",
        "  not aligned: its organizational domain is shop.example, the author's is example",
    ),
    ("8", "  aligned: it is the author domain"),
    (
        "9",
        "policy record: none; the author's walk found no record that applies",
    ),
    (
        "10",
        "policy quarantine: p is reject, in the author domain's own record; \
         t=y drops it one step",
    ),
    ("11", "result none: no policy record applies"),
    (
        "12",
        "  not usable, since p is invalid; rua has no valid entry, so the result is permerror",
    ),
    (
        "12",
        "  p: invalid, since \"often\" is not one of none, quarantine, reject",
    ),
    ("12", "result permerror: the policy record is not usable"),
    (
        "12, with rua",
        "  not usable, since p is invalid; \
         rua has a valid entry, so all three policies read as none",
    ),
    ("12, with rua", "policy none: read as none"),
];

#[test]
fn marked_sheets() {
    for (name, line) in MARKED_LINES {
        let lines = marked(name);
        assert!(lines.iter().any(|own| own == line), "{name}: {lines:#?}");
    }
}

/// The line under each identifier.
fn alignment_lines(sheet: &[u8]) -> Vec<String> {
    let lines = lines(sheet);
    let under = |pair: &[String]| pair[0].starts_with("identifier ").then(|| pair[1].clone());
    lines.windows(2).filter_map(under).collect()
}

const FIVE: &str = "author news.example.com exists supported
spf fail news.example.com
dkim temperror news.example.com
dkim pass other.org
dkim pass broken.test
";

#[test]
fn every_other_reason_of_an_alignment() {
    let own = "answer _dmarc.news.example.com \"v=DMARC1; p=none\"\n";
    let walked = "answer _dmarc.example.com none\nanswer _dmarc.com none\n\
                  answer _dmarc.other.org none\nanswer _dmarc.org none\n";
    let expected = [
        "  not aligned: its outcome is not pass",
        "  not aligned: its outcome is a temporary error",
        "  not aligned: its organizational domain is other.org, the author's is news.example.com",
        "  unknown: its walk ended in an error at broken.test (no answer is given for it)",
    ];
    assert_eq!(
        alignment_lines(&sheet(&format!("{FIVE}{own}{walked}"))),
        expected
    );
    let at_author = "  unknown: not walked, since the author's walk ended in an error \
                     at example.com (no answer is given for it)";
    let stopped = alignment_lines(&sheet(&format!("{FIVE}{own}")));
    assert_eq!(stopped[2..], [at_author, at_author]);
    let unknown = alignment_lines(&sheet(FIVE));
    assert_eq!(unknown, ["  not judged: the policy record is not known"; 4]);
    let unusable = FIVE.to_string() + "answer _dmarc.news.example.com \"v=DMARC1\"\n";
    let unusable = alignment_lines(&sheet(&unusable));
    assert_eq!(
        unusable,
        ["  not judged: the policy record is not usable"; 4]
    );
}

#[test]
fn results_by_unknown_and_by_a_temporary_error() {
    let head = "author com exists supported\n";
    let own = "answer _dmarc.com \"v=DMARC1; p=none\"\n";
    let unknown = lines(&sheet(&format!("{head}dkim pass org\n{own}")));
    let line = "result temperror: no identifier is aligned, and an alignment is unknown";
    assert!(unknown.contains(&line.to_string()), "{unknown:#?}");
    let temporary = lines(&sheet(&format!("{head}dkim temperror com\n{own}")));
    let line = "result temperror: no identifier is aligned, and one has a temporary error";
    assert!(temporary.contains(&line.to_string()), "{temporary:#?}");
}

/// Ask 2 of document 02, at the author's names and at an identifier's.
#[test]
fn texts_with_a_tag_twice() {
    let told = lines(&sheet(
        r#"author example.com exists supported
        dkim pass mail.other.test
        answer _dmarc.example.com "v=DMARC1; p=none; P=reject"
        answer _dmarc.example.com "v=DMARC1; p=reject"
        answer _dmarc.example.com "p=none; p=none"
        answer _dmarc.com "v=DMARC1; sp=; sp=none"
        answer _dmarc.mail.other.test "V=DMARC1;fo=1;p=none;v=DMARC1;fo=1"
        answer _dmarc.other.test none
        answer _dmarc.test none
        answer _dmarc.net "v=DMARC1; x=1; x=1""#,
    ));
    let expected = [
        "policy record: at example.com, the author domain's own",
        "  text: \"v=DMARC1; p=reject\"",
        "a text at example.com is no policy record: tag p is written twice",
        "  text: \"v=DMARC1; p=none; P=reject\"",
        "a text at example.com is no policy record: its first part is \"p=none\", \
         and not v=DMARC1: it does not begin with v",
        "  text: \"p=none; p=none\"",
        "also met: the record at com",
        "  text: \"v=DMARC1; sp=; sp=none\"",
        "  ignored: \"sp=\", since it has no value",
        "a text at mail.other.test is no policy record: tag v is written twice",
        "  text: \"V=DMARC1;fo=1;p=none;v=DMARC1;fo=1\"",
        "author's organizational domain: com",
    ];
    assert_eq!(told[1..13], expected);
    let alone = lines(&sheet(
        r#"author com exists supported
        answer _dmarc.com "v=DMARC1; rua=a:b; x=1; Rua=a:b""#,
    ));
    let expected = [
        "policy record: none; the author's walk found no record that applies",
        "a text at com is no policy record: tag rua is written twice",
    ];
    assert_eq!(alone[1..3], expected);
}

#[test]
fn refusals() {
    assert_eq!(
        lines(&au(1, 1, b"ok.a b.com")),
        [
            "refused 1: the author domain breaks the domain rule",
            "at 3: the octet of the domain where its first bad label begins; \
             0 if it is empty, 253 if only its length is wrong; a final dot does not count",
            "octet 0: the author domain breaks the rule: a blank may not stand in \
             `ok.a b.com`; a domain has letters, digits, `-` and `_`, labels parted by single dots",
        ]
    );
    assert_eq!(
        lines(b""),
        [
            "refused 8: the sheet is broken, or answers one name twice",
            "at 0: the octet where the broken record or the second answer begins; \
             65536 if the sheet is too long",
            "octet 0: the sheet is empty",
        ]
    );
}

/// Each explanation says the result, policy and disposition, or the refusal,
/// that the output has.
fn agrees(sheet: &[u8]) {
    let output = run(sheet);
    let said = lines(sheet);
    for line in output.lines() {
        if let Some((refused, place)) = line.split_once(" at ") {
            assert!(said[0].starts_with(&format!("{refused}: ")), "{said:?}");
            assert!(said[1].starts_with(&format!("at {place}: ")), "{said:?}");
            assert!(!said[0].contains("no sheet"));
        } else if !line.starts_with("ask") {
            let there = said.iter().any(|own| own.starts_with(&format!("{line}: ")));
            assert!(there, "{line}: {said:#?}");
        }
    }
}

#[test]
fn every_explanation_agrees_with_its_output() {
    for message in messages().expect("sheets") {
        agrees(&message.sheet);
    }
    for index in 0..400 {
        agrees(&ordinary(21, index));
        agrees(&hostile(21, index));
    }
}
