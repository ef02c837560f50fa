//! What is said of a day: its rows as a table, CSV and JSON, what a report lacks, and
//! what the refusal of one means.

use crate::stored::root;
use evaluator::refusal::Refusal;
use sheets::day::{csv, json, notes, table, Day};

fn day(lines: &str) -> Day {
    Day::read("x.txt", lines.as_bytes()).unwrap_or_else(|reason| panic!("{reason}"))
}

fn example() -> Day {
    let file = root().join("examples/day.txt");
    day(&std::fs::read_to_string(file).expect("the example"))
}

const TABLE: &str = "\
source        count  disposition  dkim         spf          author            identifiers
192.0.2.1       120  none         aligned      aligned      news.example.com  dkim pass news.example.com s1, spf pass bounce.example.com
198.51.100.7     41  reject       not aligned  not aligned  example.com       spf fail bounce.example.org
2001:db8::25      3  none         aligned      not aligned  example.com       dkim pass example.com s1, dkim temperror list.example.net k2, spf fail list.example.net
203.0.113.9       2  quarantine   not aligned  not aligned  shop.example.com
total           123  none
total             2  quarantine
total            41  reject
total           166  all
";

#[test]
fn a_table() {
    assert_eq!(table(&example()), TABLE);
    let none = "source  count  disposition  dkim  spf  author  identifiers\n\
                total       0  none\n\
                total       0  quarantine\n\
                total       0  reject\n\
                total       0  all\n";
    assert_eq!(table(&day("# nothing\n")), none);
}

/// Rows of one count stay in the order of their lines; the sums have more bits than
/// a count has; names are as a report writes them, or in hex where it cannot.
#[test]
fn what_is_odd_in_a_table() {
    let lines = "row ::ffff:1.2.3.4 4294967295 reject author B.\n spf pass c\n dkim pass D. E\n\
                 row 0:0::1 4294967295 reject author a..\n\
                 row 1::1 4294967295 reject author hex:2022\n";
    let expected = "\
source         count  disposition  dkim         spf          author    identifiers
1.2.3.4   4294967295  reject       not aligned  not aligned  b         dkim pass d e, spf pass c
::1       4294967295  reject       not aligned  not aligned  a..
1::1      4294967295  reject       not aligned  not aligned  hex:2022
total              0  none
total              0  quarantine
total    12884901885  reject
total    12884901885  all
";
    assert_eq!(table(&day(lines)), expected);
}

#[test]
fn comma_separated_values() {
    let expected = [
        "source,count,disposition,dkim,spf,author,identifiers",
        "192.0.2.1,120,none,aligned,aligned,news.example.com,\
         \"dkim pass news.example.com s1, spf pass bounce.example.com\"",
        "198.51.100.7,41,reject,not aligned,not aligned,example.com,spf fail bounce.example.org",
        "2001:db8::25,3,none,aligned,not aligned,example.com,\
         \"dkim pass example.com s1, dkim temperror list.example.net k2, spf fail list.example.net\"",
        "203.0.113.9,2,quarantine,not aligned,not aligned,shop.example.com,",
        "",
    ];
    assert_eq!(csv(&example()), expected.join("\r\n"));
}

#[test]
fn an_object_of_json() {
    let lines = "domain Example.com\nrow ::1 1 none aligned spf author a\n\
                 row 192.0.2.1 4294967295 quarantine aligned dkim author b\n \
                 spf temperror c\n dkim fail d e\n";
    let expected = concat!(
        r#"{"domain":"example.com","rows":["#,
        r#"{"source":"192.0.2.1","count":4294967295,"disposition":"quarantine","#,
        r#""dkim":"aligned","spf":"not aligned","author":"b","identifiers":["#,
        r#"{"kind":"dkim","outcome":"fail","domain":"d","selector":"e"},"#,
        r#"{"kind":"spf","outcome":"temperror","domain":"c","selector":null}]},"#,
        r#"{"source":"::1","count":1,"disposition":"none","#,
        r#""dkim":"not aligned","spf":"aligned","author":"a","identifiers":[]}],"#,
        r#""totals":{"none":1,"quarantine":4294967295,"reject":0,"all":4294967296}}"#,
    );
    assert_eq!(json(&day(lines)).to_string(), expected);
    let none = r#"{"domain":null,"rows":[],"totals":{"none":0,"quarantine":0,"reject":0,"all":0}}"#;
    assert_eq!(json(&day("\n")).to_string(), none);
}

const REPORTER: &str = "domain example.com
record \"v=DMARC1; p=reject\"
organization a
email b
receiver c
id d
begin 1
end 2
";

#[test]
fn lines_that_a_report_needs() {
    assert!(day(REPORTER).complete().is_ok());
    let missing = |lines: &str| day(lines).complete().expect_err("a missing line");
    for (item, such) in [
        ("domain", "domain example.com"),
        ("record", "record \"v=DMARC1; p=reject\""),
        ("organization", "organization \"Gate & Sons\""),
        ("email", "email dmarc@gate.example"),
        ("receiver", "receiver gate.example"),
        ("id", "id r7"),
        ("begin", "begin 2023-11-14T00:00:00Z"),
        ("end", "end 2023-11-14T23:59:59Z"),
    ] {
        let others = REPORTER.lines().filter(|line| !line.starts_with(item));
        let others: String = others.map(|line| format!("{line}\n")).collect();
        let said = format!("x.txt: a report needs a line such as: {such}");
        assert_eq!(missing(&others), said);
    }
    let all = missing("row ::1 1 none author a");
    assert_eq!(all.lines().count(), 8);
    assert!(all.starts_with("x.txt: a report needs a line such as: domain example.com\nx.txt: "));
}

/// What is said of a refusal by this number, where these lines follow the reporter's.
fn refused(number: u8, reporter: &str, rows: &str) -> Vec<String> {
    let day = day(&format!("{reporter}{rows}"));
    let complete = day.complete().expect("all lines of a report");
    notes(&complete, Refusal::new(number, 0))
}

#[test]
fn no_row() {
    let said = "x.txt: refused 18: it has no row; a day has lines such as: row 192.0.2.1 3 none \
                aligned dkim author example.com";
    assert_eq!(refused(18, REPORTER, ""), [said]);
}

#[test]
fn sets_of_identifiers() {
    let row = "row ::1 1 none author a\n";
    let dkim = " dkim pass a b\n";
    let second = format!("{row} spf pass a\n{dkim} spf fail a\n spf fail a\n");
    let other = "row ::2 1 none author a\n spf pass a\n";
    let said =
        "x.txt: line 12: refused 28: a second SPF identifier, and a message has one at the most";
    assert_eq!(refused(28, REPORTER, &(second + other)), [said]);
    let many = format!("{row}{}", dkim.repeat(18));
    let said =
        "x.txt: line 26: refused 28: the 17th identifier, and a message has 16 at the most; \
                leave out some whose outcome is fail";
    assert_eq!(refused(28, REPORTER, &many), [said]);
    let most = format!("{row}{} spf pass a\n", dkim.repeat(15));
    assert_eq!(refused(28, REPORTER, &most), Vec::<String>::new());
}

#[test]
fn texts_of_the_reporter() {
    let with = |item: &str, text: &str| {
        let other = REPORTER.replace(&format!("{item} "), "# ");
        refused(19, &format!("{other}{item} \"{text}\"\n"), "")
    };
    let empty = |item| format!("x.txt: line 9: refused 19: the {item} is empty");
    assert_eq!(with("organization", ""), [empty("organization")]);
    assert_eq!(with("email", ""), [empty("email")]);
    assert_eq!(with("contact", ""), Vec::<String>::new());
    for item in ["organization", "email", "contact"] {
        let long = "x".repeat(4097);
        let said =
            format!("x.txt: line 9: refused 19: the {item} has 4097 octets, and 4,096 at the most");
        assert_eq!(with(item, &long), [said]);
        assert_eq!(with(item, &long[1..]), Vec::<String>::new());
        let said = format!(
            "x.txt: line 9: refused 19: the {item} has octet 195 at place 2, from 0, which is outside 32 to 126"
        );
        assert_eq!(with(item, "~ é"), [said]);
        let said = format!(
            "x.txt: line 9: refused 19: the {item} has a tab at place 0, from 0, which is outside 32 to 126"
        );
        assert_eq!(with(item, "\\009\\127"), [said]);
    }
}

#[test]
fn names_id_and_times() {
    let with = |line: &str, other: &str| refused(11, &REPORTER.replace(line, other), "");
    assert_eq!(
        with("domain example.com", "domain a..b"),
        ["x.txt: line 1: refused 11: the policy domain is bad: `a..b` has a dot too many"]
    );
    assert_eq!(
        with("receiver c", "receiver hex:"),
        ["x.txt: line 5: refused 11: the receiver is bad: it is empty"]
    );
    assert_eq!(
        with("begin 1", "begin 3"),
        ["x.txt: line 7: refused 11: begin, 3, is after end, 2 (line 8)"]
    );
    assert_eq!(with("begin 1", "begin 2"), Vec::<String>::new());
    for (id, why) in [
        ("\"\"", "is empty"),
        ("a-b", "has `-`; it has letters and digits alone"),
        (&"a".repeat(65), "has 65 octets, and 64 at the most"),
    ] {
        let said = format!("x.txt: line 6: refused 11: the id {why}");
        assert_eq!(with("id d", &format!("id {id}")), [said]);
    }
    assert_eq!(
        with("id d", &format!("id {}", "a".repeat(64))),
        Vec::<String>::new()
    );
}

#[test]
fn names_of_rows() {
    let rows = "row ::1 1 none author x@y.z
 dkim pass a! b
 dkim pass a b..c
 spf fail ..
row ::2 1 none author a
";
    let rule = "a domain has letters, digits, `-` and `_`, labels parted by single dots";
    let expected = [
        "line 9: refused 11: the author domain is bad: `x@y.z` is an address; give its domain alone: y.z"
            .to_string(),
        format!("line 10: refused 11: the identifier's domain is bad: `!` may not stand in `a!`; {rule}"),
        "line 11: refused 11: the selector is bad: `b..c` has a dot too many".to_string(),
        "line 12: refused 11: the identifier's domain is bad: `.` has a dot too many".to_string(),
    ];
    let expected = expected.map(|said| format!("x.txt: {said}"));
    assert_eq!(refused(11, REPORTER, rows), expected);
    let many = format!("row ::1 1 none author a\n{}", " spf pass .\n".repeat(25));
    let said = refused(11, REPORTER, &many);
    assert_eq!(said.len(), 21);
    assert_eq!(said[20], "x.txt: refused 11: 5 more");
}

/// A refusal that no description can get has no words.
#[test]
fn other_numbers() {
    for number in [0, 10, 12, 27] {
        assert_eq!(refused(number, REPORTER, ""), Vec::<String>::new());
    }
}
