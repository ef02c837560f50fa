//! The readable description of a sheet, and back.

use crate::octets::{an, an_error, an_none, an_text, au, id, record, run, tx};
use sheets::description::{describe, make};
use sheets::generate::{hostile, ordinary};

const DESCRIPTION: &str = r#"author news.example.com exists supported
spf pass bounce.example.com
dkim pass mail.example.com
dkim temperror other.example
answer _dmarc.example.com "v=DMARC1; p=reject; sp=quarantine"
answer _dmarc.com none
answer _dmarc.mail.example.com error
"#;

fn sheet() -> Vec<u8> {
    [
        au(1, 1, b"news.example.com"),
        id(0, 1, b"bounce.example.com"),
        id(1, 1, b"mail.example.com"),
        id(1, 2, b"other.example"),
        an_text("_dmarc.example.com", "v=DMARC1; p=reject; sp=quarantine"),
        an_none("_dmarc.com"),
        an_error("_dmarc.mail.example.com"),
    ]
    .concat()
}

fn made(description: &str) -> Result<Vec<u8>, String> {
    make(description.as_bytes())
}

#[test]
fn a_description_and_its_sheet() {
    assert_eq!(made(DESCRIPTION), Ok(sheet()));
    assert_eq!(describe(&sheet()), DESCRIPTION);
}

#[test]
fn blank_lines_and_comments_are_ignored() {
    let spaced = DESCRIPTION.replace('\n', "\r\n\n  \t\n# author x exists\n  # spf\n");
    assert_eq!(made(&spaced), Ok(sheet()));
}

#[test]
fn words_of_numbers() {
    let text = "author A missing unsupported\nspf fail b\n";
    assert_eq!(made(text), Ok([au(0, 0, b"A"), id(0, 0, b"b")].concat()));
    let text = "author a unknown supported\n";
    assert_eq!(made(text), Ok(au(2, 1, b"a")));
    let raw = "author a existence=7 support=3\nid kind=5 outcome=1 hex:2e00ff\n";
    let sheet = [au(7, 3, b"a"), id(5, 1, b".\0\xff")].concat();
    assert_eq!(made(raw), Ok(sheet.clone()));
    assert_eq!(describe(&sheet), raw);
    assert_eq!(made("author hex: exists supported"), Ok(au(1, 1, b"")));
}

/// Ask 5 of document 02: the sheet has the dot, and the evaluator drops it.
#[test]
fn final_dots() {
    let text = "author Example.com. exists supported
dkim pass mail.example.com.
answer _dmarc.example.com. none
answer _dmarc.com none
";
    let sheet = [
        au(1, 1, b"Example.com."),
        id(1, 1, b"mail.example.com."),
        an_none("_dmarc.example.com."),
        an_none("_dmarc.com"),
    ]
    .concat();
    assert_eq!(made(text), Ok(sheet.clone()));
    assert_eq!(describe(&sheet), text);
    assert!(run(&sheet).starts_with("ask _dmarc.example.com\nask _dmarc.com\nresult none\n"));
}

#[test]
fn quoted_texts() {
    let with = |words: &str| made(&format!("author a exists supported\nanswer a {words}\n"));
    let sheet = |bytes: &[u8]| [au(1, 1, b"a"), an(0, b"a", bytes)].concat();
    assert_eq!(with(r#""""#), Ok(sheet(&tx(&[b""]))));
    let escapes = r#""a\"b\\c\x00\xfF;""#;
    assert_eq!(with(escapes), Ok(sheet(&tx(&[b"a\"b\\c\0\xff;"]))));
    assert_eq!(with(r#""a" "b""#), Ok(sheet(&tx(&[b"a", b"b"]))));
    assert_eq!(with(r#""a" + "b""#), Ok(sheet(&tx(&[b"a", b"b"]))));
    assert_eq!(with(r#""a" + "" "b""#), Ok(sheet(&tx(&[b"a", b"", b"b"]))));
    assert_eq!(with(r#""a""b""#), Ok(sheet(&tx(&[b"a", b"b"]))));
    let three = [tx(&[b"a", b""]), tx(&[b"b"])].concat();
    assert_eq!(with("\"a\" \"\"\nanswer a \"b\""), Ok(sheet(&three)));
    let long = "x".repeat(600);
    let cut: [&[u8]; 3] = [&[b'x'; 255], &[b'x'; 255], &[b'x'; 90]];
    assert_eq!(with(&format!("\"{long}\"")), Ok(sheet(&tx(&cut))));
    assert_eq!(with("hex 5458 0001 00"), Ok(sheet(b"TX\0\x01\0")));
    assert_eq!(with("hex"), Ok(sheet(b"")));
    for bytes in [
        tx(&[b"a", b""]),
        three,
        tx(&cut),
        b"TX\0\0".to_vec(),
        Vec::new(),
    ] {
        let octets = sheet(&bytes);
        assert_eq!(made(&describe(&octets)), Ok(octets));
    }
}

const DIGITS: &str = "digits after a `\\` are three, from \\000 to \\255";
const ANSWER_FORMS: &str = "an answer is none, error, quoted texts, or hex and its digits";
const IDENTIFIER_FORM: &str =
    "an identifier takes an outcome and a domain, as in: dkim pass example.com";
const ITEMS: &str = "a line begins with author, spf, dkim, id, answer or sheet";

/// Lines that are in error after an author line and an empty one, with what is
/// wrong.
const BAD_LINES: &[(&str, &str)] = &[
    ("spf pass", IDENTIFIER_FORM),
    ("dkim", IDENTIFIER_FORM),
    ("spf none b", "the outcome is one of fail, pass, temperror; softfail, neutral, none and permerror are fail"),
    ("dkim pass \"b\"", "a domain is not quoted"),
    ("dkim pass hex:0g", "not a hex digit"),
    ("id kind=1 b", "id takes a kind, an outcome and a domain"),
    (
        "id kind=1 outcome=x b",
        "`outcome=` and a number from 0 to 255 expected",
    ),
    (
        "id kind=256 outcome=1 b",
        "`kind=` and a number from 0 to 255 expected",
    ),
    ("answer", "answer takes a name and what was answered"),
    ("answer b", ANSWER_FORMS),
    ("answer b nothing", ANSWER_FORMS),
    ("answer b none none", ANSWER_FORMS),
    ("answer b \"a\" +", ANSWER_FORMS),
    ("answer b + \"a\"", ANSWER_FORMS),
    ("answer b \"a\" + + \"b\"", ANSWER_FORMS),
    ("answer b \"open", "a quoted text is not closed"),
    ("answer b \"\\25\"", DIGITS),
    ("answer b \"\\256\"", DIGITS),
    ("answer b \"\\2x5\"", DIGITS),
    (
        "answer b \"\\\t\"",
        "a `\\` stands before no printing octet",
    ),
    ("answer b hex 545", "an odd number of hex digits"),
    ("answer b hex \"54\"", "a quoted text after `hex`"),
    (
        "answer a..b none",
        "the name breaks the domain rule: `a..b` has a dot too many",
    ),
    (
        "answer . none",
        "the name breaks the domain rule: it is empty",
    ),
    (
        "answer a.. none",
        "the name breaks the domain rule: `a.` has a dot too many",
    ),
    (
        "answer hex: none",
        "the name breaks the domain rule: it is empty",
    ),
    (
        "answer hex:6120 none",
        "the name breaks the domain rule: a blank may not stand in `a `; a domain has letters, \
         digits, `-` and `_`, labels parted by single dots",
    ),
    ("author b exists supported", "a second author line"),
    ("sheet hex 00", "`sheet` stands alone in a description"),
    (
        "\"author\" a",
        "a line does not begin with a quoted text; put `answer` and the asked name before it",
    ),
];

const NO_AUTHOR: &str = "line 1: the description has no author line, \
     such as: author example.com exists supported";

/// Whole descriptions that are in error.
const BAD_DESCRIPTIONS: &[(&str, &str)] = &[
    ("", NO_AUTHOR),
    ("# nothing\n\n", NO_AUTHOR),
    ("spf pass b", "line 1: the author line comes first"),
    (
        "\nspf pass b\nauthor a exists supported",
        "line 2: the author line comes first",
    ),
    (
        "\nauthor a exists\n",
        "line 2: author takes a domain, its existence and whether rejecting is supported, \
         as in: author example.com exists supported",
    ),
    (
        "author a here supported",
        "line 1: the existence is one of missing, exists, unknown",
    ),
    (
        "author a exists maybe",
        "line 1: the support is one of unsupported, supported",
    ),
    (
        "author a existence=256 support=1",
        "line 1: `existence=` and a number from 0 to 255 expected",
    ),
    (
        "author hex:4 exists supported",
        "line 1: an odd number of hex digits",
    ),
    (
        "author a exists supported\nanswer b none\nspf pass b",
        "line 3: identifiers come before answers",
    ),
    (
        "author a exists supported\nanswer b none\n# again\nanswer B error",
        "line 4: the name is answered already",
    ),
    (
        "author a exists supported\nanswer b none\nanswer B. error",
        "line 3: the name is answered already",
    ),
    ("sheet 00", "line 1: `hex` expected"),
    (
        "sheet hex 00\nauthor a exists supported",
        "line 2: `sheet` stands alone in a description",
    ),
];

#[test]
fn errors_name_their_line_and_what_is_wrong() {
    for (line, reason) in BAD_LINES {
        let description = format!("author a exists supported\n\n{line}\n");
        assert_eq!(
            made(&description),
            Err(format!("line 3: {reason}")),
            "{line}"
        );
    }
    for (description, error) in BAD_DESCRIPTIONS {
        assert_eq!(made(description), Err(error.to_string()), "{description}");
    }
}

#[test]
fn an_unknown_item_is_shown_in_plain_characters() {
    let unknown = |item: &str| Err(format!("line 1: unknown item `{item}`; {ITEMS}"));
    assert_eq!(made("what is this"), unknown("what"));
    assert_eq!(make(b"AU\0\xff"), unknown("AU\\x00\\xff"));
}

#[test]
fn parts_that_are_too_long() {
    let author = "author a exists supported\n";
    let name = format!("{author}answer {} none", "b".repeat(256));
    let error = Err("line 2: the name is over 255 octets".to_string());
    assert_eq!(made(&name), error);
    let text = format!("{author}answer b \"{}\"", "x".repeat(65_536));
    let error = Err("line 2: a record is over 65535 octets".to_string());
    assert_eq!(made(&text), error);
    let texts = format!("answer b \"{}\"\n", "x".repeat(40_000)).repeat(2);
    let error = Err("line 3: longer than the 65535 octets of a sheet record".to_string());
    assert_eq!(made(&format!("{author}{texts}")), error);
    let answers = |name: &str| format!("answer {name} \"{}\"\n", "x".repeat(40_000));
    let sheet = format!("{author}{}{}", answers("b"), answers("c"));
    let error = Err("line 3: the sheet is over 65536 octets".to_string());
    assert_eq!(made(&sheet), error);
}

#[test]
fn broken_sheets_are_given_in_hex() {
    for broken in [
        Vec::new(),
        b"AU".to_vec(),
        record(b"XX", b""),
        sheet()[..20].to_vec(),
    ] {
        let text = describe(&broken);
        assert!(text.starts_with("sheet hex "), "{text}");
        assert_eq!(made(&text), Ok(broken));
    }
    assert_eq!(describe(b"AU\xff"), "sheet hex 4155ff\n");
}

#[test]
fn round_trip_of_generated_sheets() {
    for index in 0..800 {
        let sheet = ordinary(5, index);
        let text = describe(&sheet);
        assert!(text.starts_with("author "));
        assert_eq!(made(&text), Ok(sheet), "ordinary 5 {index}");
        let sheet = hostile(5, index);
        assert_eq!(made(&describe(&sheet)), Ok(sheet), "hostile 5 {index}");
    }
}
