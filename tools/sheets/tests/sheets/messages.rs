//! The sheets that a program runs one after the other: outputs of the broken
//! and odd ones written by hand from readings 101 to 113, 126 and 134 to 136.

use crate::octets::{printed, run};
use crate::stored::{bodies, check_stored};
use sheets::examples::{APPENDIX_B, MARKED};
use sheets::programs::messages::{files, messages};

/// The broken and odd sheets in their order, each with the names asked, and its
/// refusal or its result, policy and disposition.
const ODD: &[(&str, &[&str], &str)] = &[
    (
        "101: 8 before 1 and 3, whatever follows",
        &[],
        "refused 8 at 24",
    ),
    ("101: 1 before 3", &[], "refused 1 at 2"),
    (
        "101: a second answer before another mark",
        &[],
        "refused 8 at 24",
    ),
    (
        "101: another mark before a second answer",
        &[],
        "refused 8 at 24",
    ),
    ("103: AU of two octets", &[], "refused 1 at 0"),
    ("103: AU of one octet", &[], "refused 8 at 0"),
    ("103: ID of two octets", &[], "refused 2 at 0"),
    ("103: ID of one octet", &[], "refused 8 at 17"),
    ("103: AN of one octet", &[], "refused 8 at 17"),
    (
        "103: AN whose name is longer than its body",
        &[],
        "refused 8 at 17",
    ),
    ("104: none with an octet after", &[], "refused 8 at 17"),
    ("104: error with an octet after", &[], "refused 8 at 17"),
    ("105: one octet left over", &[], "refused 8 at 17"),
    ("105: three octets left over", &[], "refused 8 at 17"),
    ("105: a body past the end", &[], "refused 8 at 17"),
    ("105: the author's body past the end", &[], "refused 8 at 0"),
    ("106: a name of no octets", &[], "refused 8 at 17"),
    (
        "106: a name of 253 octets",
        &["example.com"],
        "temperror unknown defer",
    ),
    ("106: a name of 254 octets", &[], "refused 8 at 17"),
    ("106: a name with an empty label", &[], "refused 8 at 17"),
    ("106: a name with a blank", &[], "refused 8 at 17"),
    (
        "106: a name without _dmarc. is not asked",
        &["example.com"],
        "temperror unknown defer",
    ),
    ("107: an empty sheet", &[], "refused 8 at 0"),
    ("107: ID first", &[], "refused 8 at 0"),
    ("107: AN alone", &[], "refused 8 at 0"),
    ("107: a second AU", &[], "refused 8 at 17"),
    ("107: ID after AN", &[], "refused 8 at 24"),
    ("107: mark au", &[], "refused 8 at 0"),
    ("107: mark TX", &[], "refused 8 at 17"),
    ("108: the same answer again", &[], "refused 8 at 98"),
    (
        "108: another answer, in the other case",
        &[],
        "refused 8 at 98",
    ),
    (
        "108: a second answer that is not asked",
        &[],
        "refused 8 at 114",
    ),
    ("109: existence 3", &[], "refused 3 at 255"),
    ("109: support 2", &[], "refused 3 at 255"),
    (
        "109: existence and support in ASCII",
        &[],
        "refused 3 at 255",
    ),
    ("109: kind 2", &[], "refused 3 at 1"),
    ("109: outcome 3", &[], "refused 3 at 0"),
    ("109: status 3", &[], "refused 8 at 17"),
    ("110: 16 identifiers", &["example.com"], "pass reject none"),
    ("110: 17 identifiers", &[], "refused 4 at 16"),
    ("110: the 17th of kind 7", &[], "refused 3 at 16"),
    (
        "110: a second SPF, with a bad domain",
        &[],
        "refused 4 at 2",
    ),
    ("110: an author with a bad label", &[], "refused 1 at 3"),
    ("110: an author of 254 octets", &[], "refused 1 at 253"),
    ("110: an identifier with a bad label", &[], "refused 2 at 1"),
    (
        "111: an unreadable answer, asked second",
        &[],
        "refused 6 at 0",
    ),
    (
        "111: an unreadable answer that is not asked",
        &["news.example.com"],
        "fail none none",
    ),
    ("111: 17 records", &[], "refused 6 at 0"),
    ("111: an answer of 4,096 octets", &["com"], "none none none"),
    ("111: an answer of 4,097 octets", &[], "refused 6 at 0"),
    ("111: 4 before 6", &[], "refused 4 at 1"),
    (
        "112: records of zero bytes are none",
        &["com"],
        "none none none",
    ),
    (
        "113: a sheet of AU alone",
        &["example.com"],
        "temperror unknown defer",
    ),
    (
        "113: the second name has no answer",
        &["example.com", "com"],
        "temperror unknown defer",
    ),
    (
        "113: an identifier's name has no answer",
        &["com", "net"],
        "temperror reject defer",
    ),
    ("126: p twice", &["example.com", "com"], "none none none"),
    (
        "126: p twice beside one record",
        &["example.com"],
        "fail reject reject",
    ),
    ("126: v again", &["example.com", "com"], "none none none"),
    (
        "126: an unknown name again, in the other case",
        &["example.com", "com"],
        "none none none",
    ),
    (
        "126: sp again, but without a value",
        &["example.com"],
        "fail reject reject",
    ),
    ("126: rua twice", &["example.com", "com"], "none none none"),
    (
        "126: psd=y twice ends no walk",
        &["a.example.com", "example.com", "com"],
        "none none none",
    ),
    (
        "134: a final dot in every place",
        &["example.com", "com", "mail.example.com"],
        "pass reject none",
    ),
    ("135: a lone dot as author", &[], "refused 1 at 0"),
    ("135: two dots as author", &[], "refused 1 at 0"),
    ("135: an author with two final dots", &[], "refused 1 at 2"),
    (
        "135: an author with a bad label and a final dot",
        &[],
        "refused 1 at 3",
    ),
    (
        "135: an author of 253 octets and a final dot",
        &[LONG_PARENT],
        "temperror unknown defer",
    ),
    (
        "135: an author of 254 octets and a final dot",
        &[],
        "refused 1 at 253",
    ),
    (
        "135: an author of 253 octets and two final dots",
        &[],
        "refused 1 at 254",
    ),
    ("135: a lone dot as identifier", &[], "refused 2 at 1"),
    (
        "135: an identifier with two final dots",
        &[],
        "refused 2 at 2",
    ),
    ("135: a lone dot as a name", &[], "refused 8 at 18"),
    ("135: a name with two final dots", &[], "refused 8 at 18"),
    (
        "135: a name of 253 octets and a final dot",
        &["example.com"],
        "fail reject reject",
    ),
    (
        "135: a name of 254 octets and a final dot",
        &[],
        "refused 8 at 18",
    ),
    (
        "136: an answer with a final dot",
        &["example.com"],
        "fail reject reject",
    ),
    ("136: both spellings answered", &[], "refused 8 at 99"),
    (
        "136: both spellings answered, the other way round",
        &[],
        "refused 8 at 100",
    ),
    (
        "136: both spellings answered and not asked",
        &[],
        "refused 8 at 27",
    ),
    (
        "136: two spellings are one walk",
        &["example.com", "com", "a.other.test", "other.test", "test"],
        "fail reject reject",
    ),
    (
        "136: labels are counted without the dot",
        &["a.b.c.d.e.f.g.h.test"],
        "temperror unknown defer",
    ),
];

/// Two labels of 63 octets and one of 61: the last labels of a domain of 253
/// octets, which is not asked itself.
const LONG_PARENT: &str = "xxxxxxxxxxxxxxxxxxxxxxxxxxxxxxxxxxxxxxxxxxxxxxxxxxxxxxxxxxxxxxx.\
     xxxxxxxxxxxxxxxxxxxxxxxxxxxxxxxxxxxxxxxxxxxxxxxxxxxxxxxxxxxxxxx.\
     yyyyyyyyyyyyyyyyyyyyyyyyyyyyyyyyyyyyyyyyyyyyyyyyyyyyyyyyyyyyy";

#[test]
fn the_odd_sheets_give_what_the_readings_say() {
    let messages = messages().expect("sheets");
    let odd = &messages[MARKED.len() + APPENDIX_B.len()..];
    assert_eq!(odd.len(), ODD.len());
    for (message, (name, asked, words)) in odd.iter().zip(ODD) {
        let expected = match words.starts_with("refused") {
            true => format!("{words}\n"),
            false => printed(asked, words),
        };
        assert_eq!(message.name, *name);
        assert_eq!(run(&message.sheet), expected, "{name}");
    }
}

#[test]
fn the_marked_sheets_and_those_of_appendix_b_come_first() {
    let messages = messages().expect("sheets");
    for (message, row) in messages.iter().zip(MARKED.iter().chain(APPENDIX_B)) {
        assert_eq!(Ok(&message.sheet), row.sheet().as_ref());
        assert!(message.name.ends_with(row.name), "{}", message.name);
    }
}

#[test]
fn the_files_hold_all_sheets_and_outputs() {
    let files = files().expect("cases that fit their lengths");
    assert!(files.cases.len() < 60_000, "{} octets", files.cases.len());
    let messages = messages().expect("sheets");
    let sheets: Vec<(u8, &[u8])> = bodies(&files.cases);
    assert_eq!(sheets.len(), messages.len());
    let mut outputs = Vec::new();
    for ((kind, sheet), message) in sheets.into_iter().zip(messages) {
        assert_eq!((kind, sheet), (b'M', message.sheet.as_slice()));
        outputs.extend(run(sheet).bytes());
    }
    assert!(outputs == files.expected);
}

/// The program that runs the sheets through the proved code has them beside it.
#[test]
fn the_stored_files_are_these() {
    check_stored("messages", files());
}
