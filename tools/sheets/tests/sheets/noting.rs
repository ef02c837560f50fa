//! What is said on standard error beside an output.

use crate::octets::{an_none, au, run};
use sheets::handed::{Form, Handed};
use sheets::notes::notes;
use sheets::printed::Printed;

fn noted(handed: &Handed) -> Vec<String> {
    let printed = Printed::read(run(handed.sheet()).as_bytes()).expect("an output");
    notes(handed, &printed)
}

fn of_description(text: &str) -> Vec<String> {
    noted(&Handed::read(Form::Description, "x.txt", text.as_bytes()).expect("a message"))
}

#[test]
fn nothing_to_be_said() {
    let text = "author b exists supported\nanswer _dmarc.b none\n";
    assert!(of_description(text).is_empty());
}

#[test]
fn names_without_an_answer_and_answers_never_asked() {
    let text = "author example.com exists supported
answer _dmarc.exmaple.com none
answer EXAMPLE.com. none

answer other.test error
";
    let expected = [
        "no answer in x.txt for _dmarc.example.com: read as a failed lookup",
        "never asked: _dmarc.exmaple.com (line 2)",
        "never asked: example.com (line 3); the name asked is _dmarc.example.com",
        "never asked: other.test (line 5)",
    ];
    assert_eq!(of_description(text), expected);
    // An error that was answered is no name without an answer.
    let error = "author example.com exists supported\nanswer _dmarc.example.com error\n";
    assert!(of_description(error).is_empty());
}

#[test]
fn a_sheet_has_octets_for_lines() {
    let sheet = [au(1, 1, b"b"), an_none("_dmarc.b"), an_none("c")].concat();
    let place = au(1, 1, b"b").len() + an_none("_dmarc.b").len();
    let noted = noted(&Handed::sheet_of("x.sheet", &sheet));
    assert_eq!(noted, [format!("never asked: c (octet {place})")]);
}

#[test]
fn many_answers_never_asked() {
    let answers = (0..25).map(|n| format!("answer a{n}.test none\n"));
    let text: String = answers.collect();
    let noted = of_description(&format!(
        "author b exists supported\n{text}answer _dmarc.b none"
    ));
    assert_eq!(noted.len(), 21);
    assert_eq!(noted[0], "never asked: a0.test (line 2)");
    assert_eq!(noted[20], "never asked: 5 more");
}

#[test]
fn a_refusal_has_its_line() {
    let text = "# one\nauthor b exists supported\nspf pass b\ndkim pass joe@b.c\n";
    let expected = "x.txt: line 4: refused 2: the identifier's domain breaks the rule: \
                    `joe@b.c` is an address; give its domain alone: b.c";
    assert_eq!(of_description(text), [expected]);
    let hex = "\nsheet hex 4155\n";
    let expected = "x.txt: line 2: refused 8: 2 octets are left over, too few for a record";
    assert_eq!(of_description(hex), [expected]);
    let sheet = Handed::sheet_of("x.sheet", &au(1, 1, b""));
    let expected = "x.sheet: octet 0: refused 1: the author domain breaks the rule: it is empty";
    assert_eq!(noted(&sheet), [expected]);
}

/// What is wrong with a description.
fn mistake(octets: &[u8]) -> String {
    Handed::read(Form::Description, "x.txt", octets).expect_err("a mistake")
}

#[test]
fn mistakes_have_the_name_of_the_file() {
    let text = b"author b exists supported\n\nspf maybe b\n";
    let expected = "x.txt: line 3: the outcome is one of fail, pass, temperror; softfail, neutral, none and permerror are fail";
    assert_eq!(mistake(text), expected);
    let such = "a description has a line such as: author example.com exists supported";
    assert_eq!(mistake(b""), format!("x.txt: it is empty; {such}"));
    let wide = "x.txt: it is written in UTF-16; save it as UTF-8 or ASCII";
    assert_eq!(mistake(b"\xff\xfea\0"), wide);
    assert_eq!(mistake(b"\xfe\xff\0a"), wide);
}

#[test]
fn what_is_shown_of_an_input_is_cut() {
    let items = "a line begins with author, spf, dkim, id, answer or sheet";
    let zeros = mistake(&[0; 70_000]);
    let shown = "\\x00".repeat(20);
    let hint = "read as a description; if it is a sheet, say --sheet";
    let expected = format!("x.txt: line 1: unknown item `{shown}...`; {items}\nx.txt: {hint}");
    assert_eq!(zeros, expected);
    let text = mistake(&[b'x'; 70_000]);
    let shown = "x".repeat(80);
    let expected = format!("x.txt: line 1: unknown item `{shown}...`; {items}");
    assert_eq!(text, expected);
    let expected = "x.txt: it is over 1,048,576 octets, which no message needs";
    assert_eq!(mistake(&vec![0; (1 << 20) + 1]), expected);
    // One octet fewer is read.
    let mut most = vec![b'\n'; 1 << 20];
    most[..25].copy_from_slice(b"author b exists supported");
    assert!(Handed::read(Form::Description, "x.txt", &most).is_ok());
}
