//! Answers as dig prints them, lines that add up, comments and case.

use crate::octets::{an, an_error, an_none, an_text, au, id, tx};
use sheets::description::{describe, make, read};

fn made(lines: &str) -> Result<Vec<u8>, String> {
    make(format!("author a exists supported\n{lines}").as_bytes())
}

/// After the author, an answer of these bytes at example.com.
fn answered(bytes: &[u8]) -> Result<Vec<u8>, String> {
    Ok([au(1, 1, b"a"), an(0, b"_dmarc.example.com", bytes)].concat())
}

#[test]
fn strings_of_one_line_are_one_record() {
    let two = tx(&[b"v=DMARC1; p=rej", b"ect"]);
    let line = r#"answer _dmarc.example.com "v=DMARC1; p=rej" "ect""#;
    assert_eq!(made(line), answered(&two));
    let joined = r#"answer _dmarc.example.com "v=DMARC1; p=rej" + "ect""#;
    assert_eq!(made(joined), answered(&two));
}

#[test]
fn lines_of_one_name_add_up() {
    let lines = "answer _dmarc.example.com \"a\"
answer _dmarc.org none
answer _DMARC.Example.com. \"b\" \"c\"
_dmarc.example.com. IN TXT \"d\"
";
    let records = [tx(&[b"a"]), tx(&[b"b", b"c"]), tx(&[b"d"])].concat();
    let expected = [
        au(1, 1, b"a"),
        an(0, b"_dmarc.example.com", &records),
        an_none("_dmarc.org"),
    ]
    .concat();
    assert_eq!(made(lines), Ok(expected.clone()));
    let described = describe(&expected);
    assert_eq!(
        described,
        "author a exists supported
answer _dmarc.example.com \"a\"
answer _dmarc.example.com \"b\" \"c\"
answer _dmarc.example.com \"d\"
answer _dmarc.org none
"
    );
    assert_eq!(make(described.as_bytes()), Ok(expected));
}

#[test]
fn other_answers_do_not_add_up() {
    let twice = Err("line 3: the name is answered already".to_string());
    let said = ["none", "error", "hex", "hex 5458000100", "\"a\""];
    for first in said {
        for second in said {
            let lines = format!("answer b {first}\nanswer B. {second}\n");
            let adds = first == "\"a\"" && second == "\"a\"";
            assert_eq!(made(&lines) == twice, !adds, "{lines}");
        }
    }
}

/// A line of dig's, and the answer that it is.
const PASTED: &[(&str, &[&[u8]])] = &[
    (
        r#"_dmarc.example.com. 300 IN TXT "v=DMARC1; p=reject""#,
        &[b"v=DMARC1; p=reject"],
    ),
    (
        "_dmarc.example.com.\t\t86400\tIN\tTXT\t\"a\" \"b\"\r",
        &[b"a", b"b"],
    ),
    (r#"_dmarc.example.com. TXT "a""#, &[b"a"]),
    (r#"_dmarc.example.com. in txt "a""#, &[b"a"]),
    (r#"_dmarc.example.com. 1h30m IN TXT "a" # dig"#, &[b"a"]),
];

#[test]
fn lines_of_dig() {
    for (line, strings) in PASTED {
        let name = b"_dmarc.example.com.";
        let expected = [au(1, 1, b"a"), an(0, name, &tx(strings))].concat();
        assert_eq!(made(line), Ok(expected), "{line}");
    }
}

#[test]
fn lines_of_dig_that_are_no_answer() {
    let alias = "_dmarc.example.com. 300 IN CNAME _dmarc.example.net.";
    let why = "of dig's lines only those of TXT are read; give the asked name itself with the \
               strings it led to: answer NAME \"...\"";
    assert_eq!(made(alias), Err(format!("line 2: {why}")));
    let forms = "an answer is none, error, quoted texts, or hex and its digits";
    let bare = "_dmarc.example.com. 300 IN TXT v=DMARC1";
    assert_eq!(made(bare), Err(format!("line 2: {forms}")));
    let other = made("example.com. 300 IN SOA a. b. 1 2 3 4 5").expect_err("a mistake");
    assert!(other.starts_with("line 2: unknown item `example.com.`; "));
    let short = made(r#""v=DMARC1; p=none""#).expect_err("a mistake");
    assert!(short.ends_with("; put `answer` and the asked name before it"));
}

#[test]
fn escapes_of_zone_files() {
    let escapes = [
        (r#"\;"#, b";".as_slice()),
        (r#"\000\009\255\065"#, b"\0\x09\xffA"),
        (r#"\"\\"#, b"\"\\"),
        (r#"\x41\xfF\xg0\x"#, b"A\xffxg0x"),
        (r#"\q\ \#"#, b"q #"),
        (r#"a # b"#, b"a # b"),
    ];
    for (text, octets) in escapes {
        let line = format!("answer _dmarc.example.com \"{text}\"");
        assert_eq!(made(&line), answered(&tx(&[octets])), "{text}");
    }
}

#[test]
fn comments_come_after_a_blank() {
    let lines = "dkim pass b.c # a note
dkim pass d.e\t#
# answer b none
answer b none # \"not closed
answer c error #
";
    let expected = [
        au(1, 1, b"a"),
        id(1, 1, b"b.c"),
        id(1, 1, b"d.e"),
        an_none("b"),
        an_error("c"),
    ]
    .concat();
    assert_eq!(made(lines), Ok(expected));
    // Within a word it begins no comment.
    let word = [au(1, 1, b"a"), id(1, 1, b"b#c")].concat();
    assert_eq!(made("dkim pass b#c"), Ok(word));
    assert!(made("answer b \"a\"# note").is_err());
}

#[test]
fn words_in_either_case() {
    let text = "AUTHOR A Exists UNSUPPORTED
Spf PASS b
ID Kind=1 OUTCOME=2 HEX:63
Answer d NONE
ANSWER e Error
answer f HEX 5458000100
answer g \"x\"
";
    let expected = [
        au(1, 0, b"A"),
        id(0, 1, b"b"),
        id(1, 2, b"c"),
        an_none("d"),
        an_error("e"),
        an(0, b"f", b"TX\0\x01\0"),
        an_text("g", "x"),
    ]
    .concat();
    assert_eq!(make(text.as_bytes()), Ok(expected));
    assert_eq!(make(b"SHEET HEX 4155"), Ok(b"AU".to_vec()));
}

#[test]
fn a_byte_order_mark_is_skipped() {
    let text = b"\xef\xbb\xbfauthor a exists supported\r\n";
    assert_eq!(make(text), Ok(au(1, 1, b"a")));
}

#[test]
fn the_line_of_each_record() {
    let text = b"# note\nauthor a exists supported\n\nspf pass b\nanswer c \"x\"\nanswer d none\nanswer c \"y\"\n";
    let described = read(text).expect("a sheet");
    let (author, spf) = (au(1, 1, b"a").len(), id(0, 1, b"b").len());
    let first = an(0, b"c", &[tx(&[b"x"]), tx(&[b"y"])].concat()).len();
    let places = [
        (0, 2),
        (author, 4),
        (author + spf, 5),
        (author + spf + first, 6),
    ];
    assert_eq!(described.lines, places);
    for (place, line) in places {
        assert_eq!(described.line(place), Some(line));
    }
    let whole = read(b"\nsheet hex 4155 0000").expect("a sheet");
    assert_eq!(whole.line(4), Some(2));
}
