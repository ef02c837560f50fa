//! What is said of reports that were received: their rows as tables, CSV and JSON,
//! and what the refusal of one means.

use evaluator::refusal::Refusal;
use sheets::day::{Day, DayRow};
use sheets::received::{csv, json, notes, table, Received, Refused};

/// Rows by the lines of a day.
fn rows(lines: &str) -> Vec<DayRow> {
    let day = Day::read("x.txt", lines.as_bytes());
    day.unwrap_or_else(|reason| panic!("{reason}")).rows
}

fn report(name: &str, lines: &str) -> Received {
    Received {
        name: name.to_string(),
        policy: b"p.example".to_vec(),
        rows: rows(lines),
        refused: None,
    }
}

/// A report that is refused between two texts, where one of two tags could stand.
fn refused(number: u8, before: &str, after: impl AsRef<[u8]>) -> Received {
    Received {
        name: "c.xml".to_string(),
        policy: Vec::new(),
        rows: Vec::new(),
        refused: Some(Refused {
            refusal: Refusal::new(number, before.len()),
            before: before.as_bytes().to_vec(),
            after: after.as_ref().to_vec(),
            next: [&b"<sp>"[..], b"<np>"].map(<[u8]>::to_vec).to_vec(),
        }),
    }
}

const FIRST: &str = "row 192.0.2.1 120 none aligned dkim author a.b
  dkim pass a.b s1
  spf fail c
row 198.51.100.7 3 none author b
";
const SECOND: &str = "row 203.0.113.9 41 reject author b
row 2001:db8::25 2 quarantine aligned spf author b
  spf pass b
";

fn both() -> [Received; 2] {
    let mut second = report("b.xml", SECOND);
    second.policy = b"b".to_vec();
    [report("a.xml", FIRST), second]
}

const TABLES: &str = "\
what failed, and from where: 46 of 166 messages
source        count  disposition  dkim         spf          author  identifiers
203.0.113.9      41  reject       not aligned  not aligned  b
198.51.100.7      3  none         not aligned  not aligned  b
2001:db8::25      2  quarantine   not aligned  aligned      b       spf pass b

by policy domain
policy     count  failed  none  quarantine  reject
p.example    123       3   123           0       0
b             43      43     0           2      41

by author domain
author  count  failed  none  quarantine  reject
a.b       120       0   120           0       0
b          46      46     3           2      41

all rows: 4 of 2 reports
source        count  disposition  dkim         spf          author  identifiers
192.0.2.1       120  none         aligned      not aligned  a.b     dkim pass a.b s1, spf fail c
203.0.113.9      41  reject       not aligned  not aligned  b
198.51.100.7      3  none         not aligned  not aligned  b
2001:db8::25      2  quarantine   not aligned  aligned      b       spf pass b
total           123  none
total             2  quarantine
total            41  reject
total           166  all
";

#[test]
fn what_failed_comes_first() {
    assert_eq!(table(&both()), TABLES);
    assert!(notes(&both()).is_empty());
}

#[test]
fn nothing_failed() {
    let passed = report("a.xml", "row ::1 4294967295 none aligned spf author a\n");
    let expected = "\
what failed, and from where: 0 of 8589934590 messages

by policy domain
policy          count  failed        none  quarantine  reject
p.example  8589934590       0  8589934590           0       0

by author domain
author       count  failed        none  quarantine  reject
a       8589934590       0  8589934590           0       0

all rows: 2 of 2 reports
";
    let printed = table(&[passed.clone(), passed]);
    assert!(printed.starts_with(expected), "{printed}");
}

/// A refusal stands before what was read, and alone where nothing was.
#[test]
fn refusals_in_a_table() {
    let [first, second] = both();
    let alone = refused(22, "<?xml", "");
    let line = "refused 22 at 5 of c.xml\n";
    assert_eq!(table(std::slice::from_ref(&alone)), line);
    let printed = table(&[first, second, alone]);
    let tables = TABLES.replace("of 2 reports", "of 3 reports");
    assert_eq!(printed, format!("{line}\n{tables}"));
}

#[test]
fn comma_separated_values() {
    let expected = [
        "file,source,count,disposition,dkim,spf,author,identifiers",
        "a.xml,192.0.2.1,120,none,aligned,not aligned,a.b,\"dkim pass a.b s1, spf fail c\"",
        "b.xml,203.0.113.9,41,reject,not aligned,not aligned,b,",
        "a.xml,198.51.100.7,3,none,not aligned,not aligned,b,",
        "b.xml,2001:db8::25,2,quarantine,not aligned,aligned,b,spf pass b",
        "",
    ];
    assert_eq!(csv(&both()), expected.join("\r\n"));
    let none = csv(&[refused(22, "", "")]);
    assert_eq!(none, format!("{}\r\n", expected[0]));
    let odd = csv(&[report("a,\"b\".xml", "row ::1 1 none author a\n")]);
    assert!(odd.contains("\r\n\"a,\"\"b\"\".xml\",::1,1,none,"), "{odd}");
}

#[test]
fn an_object_of_json() {
    let row = concat!(
        r#"{"file":"b.xml","source":"::1","count":2,"disposition":"reject","dkim":"not aligned","#,
        r#""spf":"not aligned","author":"a","identifiers":["#,
        r#"{"kind":"dkim","outcome":"fail","domain":"d","selector":"e"}]}"#,
    );
    let refusal = r#"{"number":22,"at":5,"meaning":"the report ends early"}"#;
    let expected = [
        r#"{"files":[{"file":"b.xml","rows":1,"refused":null},{"file":"c.xml","rows":0,"refused":"#,
        refusal,
        r#"}],"failed":["#,
        row,
        r#"],"policies":[{"policy":"p.example","failed":2,"none":0,"quarantine":0,"reject":2,"all":2}"#,
        r#"],"authors":[{"author":"a","failed":2,"none":0,"quarantine":0,"reject":2,"all":2}],"rows":["#,
        row,
        r#"],"totals":{"none":0,"quarantine":0,"reject":2,"all":2}}"#,
    ];
    let own = report("b.xml", "row ::1 2 reject author a\n dkim fail d e\n");
    let printed = json(&[own, refused(22, "<?xml", "")]).to_string();
    assert_eq!(printed, expected.concat());
}

#[test]
fn text_outside_the_form() {
    let before = "<row><source_ip>192.0.2.1</source_ip><count>";
    let expected = [
        "c.xml: octet 44: refused 20: `0` is outside the form of a report",
        "<row><source_ip>192.0.2.1</source_ip><count>07</count>",
        "                                            ^",
        "in <count> stands a number from 1 to 4294967295, without a leading zero",
    ];
    assert_eq!(notes(&[refused(20, before, "07</count>")]), expected);
}

#[test]
fn a_number_that_is_too_large() {
    let said = |before: &str| notes(&[refused(21, before, "6</")]).swap_remove(0);
    let count = "c.xml: octet 16: refused 21: count is over its 32 bits";
    assert_eq!(said("<count>429496729"), count);
    let begin = "c.xml: octet 26: refused 21: begin is over its 64 bits";
    assert_eq!(said("<begin>1844674407370955161"), begin);
}

/// Where the report ends, the mark stands past its last octet.
#[test]
fn a_report_that_ends_early() {
    let mut report = refused(22, "</record></feedba", "");
    report.rows = rows(FIRST);
    let expected = [
        "c.xml: octet 17: refused 22: the report ends early",
        "</record></feedba",
        "                 ^",
        "there can stand `<sp>` or `<np>`",
        "c.xml: the 2 rows before that were read, and are told",
    ];
    assert_eq!(notes(std::slice::from_ref(&report)), expected);
    // Of an empty file there is nothing to be shown.
    let empty = notes(&[refused(22, "", "")]);
    assert_eq!(
        empty[0],
        "c.xml: octet 0: refused 22: the report ends early"
    );
    assert_eq!(empty[1..], expected[3..4]);
    report.rows.truncate(1);
    let last = notes(&[report]).pop();
    let told = "c.xml: the row before that was read, and is told";
    assert_eq!(last.as_deref(), Some(told));
}

/// What could stand at a place, by the element that is open or the texts that are told.
#[test]
fn what_could_stand_there() {
    let could = |before: &str| notes(&[refused(20, before, "!")]).swap_remove(3);
    let tag = "there can stand `<sp>` or `<np>`";
    for (before, begin) in [
        (
            "<feedback xmlns=\"a\"><report_metadata><org_name>a",
            "in <org_name> stands 1 to ",
        ),
        (
            "<report_id>r7",
            "in <report_id> stands 1 to 64 letters and digits",
        ),
        ("</begin><end>17", "in <end> stands seconds, "),
        (
            "<header_from>a.",
            "in <header_from> stands a domain in lower case",
        ),
        ("<np>", "in <np> stands none, quarantine or reject"),
        ("<aspf>", "in <aspf> stands r or s"),
        ("<testing>", "in <testing> stands y or n"),
        ("<source_ip>1.2", "in <source_ip> stands four numbers "),
        ("<disposition>n", "in <disposition> stands none, "),
        ("<spf>", tag),
        ("<result>", "in <result> stands pass, fail or temperror"),
        ("<row>", tag),
        ("<count>3</coun", tag),
        ("<count>3</count>", tag),
        ("<", tag),
        ("", tag),
    ] {
        let said = could(before);
        assert!(said.starts_with(begin), "{before}: {said}");
    }
}

/// Nothing, one text, and three.
#[test]
fn texts_that_could_stand_there() {
    let could = |texts: &[&[u8]]| {
        let mut report = refused(20, "</p>", "!");
        let own = report.refused.as_mut().expect("a refusal");
        own.next = texts.iter().map(|text| text.to_vec()).collect();
        notes(&[report]).swap_remove(3)
    };
    assert_eq!(could(&[]), "nothing can stand there");
    assert_eq!(could(&[b"<a \n>"]), "there can stand `<a \\n>`");
    let three = "there can stand `a`, `b` or `c`";
    assert_eq!(could(&[b"a", b"b", b"c"]), three);
}

#[test]
fn what_is_likely_to_be_the_reason() {
    let last = |before: &str, after: &[u8]| {
        let mut said = notes(&[refused(20, before, after)]);
        said.truncate(5);
        said.split_off(4).pop().unwrap_or_default()
    };
    assert!(last("", b"PK\x03\x04").starts_with("it looks like a zip archive"));
    assert!(last("", b"\x1f\x8b\x08").starts_with("it is packed by gzip"));
    assert!(last("", b"\xef\xbb\xbf<?xml").starts_with("it begins with a byte order mark"));
    let layout = "a blank or a line end after a tag is of another layout";
    for octet in [b"\n", b"\r", b" ", b"\t"] {
        assert!(last("<feedback>", octet).starts_with(layout));
    }
    for (before, after) in [("<p>none", &b" "[..]), ("<", b"PK"), ("", b"x")] {
        assert_eq!(last(before, after), "");
    }
}

#[test]
fn octets_in_words() {
    let said = |octet: u8| notes(&[refused(20, "<", [octet])]).swap_remove(0);
    let outside = "is outside the form of a report";
    for (octet, words) in [
        (b'\n', "a line end"),
        (b'\r', "a line end"),
        (b'\t', "a tab"),
        (b' ', "a blank"),
        (b'x', "`x`"),
        (200, "octet 200"),
    ] {
        let expected = format!("c.xml: octet 1: refused 20: {words} {outside}");
        assert_eq!(said(octet), expected);
    }
}
