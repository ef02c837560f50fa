//! A day: its rows in each form, and its aggregate report.

use std::fs;

use crate::ends::{ends, misused};
use desk::root;
use desk::script::{Ended, Folder};

fn example() -> String {
    fs::read_to_string(root().join("examples/day.txt")).expect("the example")
}

/// Runs these words on a day in a file.
fn run(words: &[&str], day: &str) -> Ended {
    let folder = Folder::with("x.txt", day);
    folder.dmarc(&[words, &["x.txt"]].concat())
}

/// Two rows, without what a report needs beside them.
const ROWS: &str = "row 2001:db8::25 3 none aligned dkim author b
  spf fail d
  dkim pass b s
row 198.51.100.7 41 reject author c.b # without identifiers
";
const TABLE: &str = "\
source        count  disposition  dkim         spf          author  identifiers
198.51.100.7     41  reject       not aligned  not aligned  c.b
2001:db8::25      3  none         aligned      not aligned  b       dkim pass b s, spf fail d
total             3  none
total             0  quarantine
total            41  reject
total            44  all
";

#[test]
fn a_table_most_messages_first() {
    ends(&run(&["--day"], ROWS), 0, TABLE, &[]);
    let crlf = ROWS.replace('\n', "\r\n");
    ends(&run(&["--day"], &crlf), 0, TABLE, &[]);
    let folder = Folder::new();
    let from_input = folder.dmarc_reading(&["--day", "-"], ROWS.as_bytes());
    ends(&from_input, 0, TABLE, &[]);
    let example = run(&["--day"], &example());
    assert!(example.printed.ends_with("\ntotal           166  all\n"));
    assert_eq!((example.status, example.said.as_str()), (0, ""));
}

#[test]
fn comma_separated_values_and_json() {
    let csv = "source,count,disposition,dkim,spf,author,identifiers\r\n\
               198.51.100.7,41,reject,not aligned,not aligned,c.b,\r\n\
               2001:db8::25,3,none,aligned,not aligned,b,\"dkim pass b s, spf fail d\"\r\n";
    ends(&run(&["--day", "--csv"], ROWS), 0, csv, &[]);
    let json = concat!(
        r#"{"domain":null,"rows":[{"source":"198.51.100.7","count":41,"disposition":"reject","#,
        r#""dkim":"not aligned","spf":"not aligned","author":"c.b","identifiers":[]},"#,
        r#"{"source":"2001:db8::25","count":3,"disposition":"none","#,
        r#""dkim":"aligned","spf":"not aligned","author":"b","identifiers":["#,
        r#"{"kind":"dkim","outcome":"pass","domain":"b","selector":"s"},"#,
        r#"{"kind":"spf","outcome":"fail","domain":"d","selector":null}]}],"#,
        r#""totals":{"none":3,"quarantine":0,"reject":41,"all":44}}"#,
        "\n",
    );
    ends(&run(&["--json", "--day"], ROWS), 0, json, &[]);
    let none = run(&["--day", "--json"], "# no row\n");
    let begin = "{\"domain\":null,\"rows\":[],\"totals\":{\"none\":0,";
    assert!(none.printed.starts_with(begin), "{}", none.printed);
}

const NAME: &str = "gate.example!example.com!1699920000!1700006399!r7.xml";
const SUBJECT: &str = "Report Domain: example.com Submitter: gate.example Report-ID: <r7>";

#[test]
fn a_report_and_what_is_said_beside_it() {
    let ended = run(&["--report"], &example());
    let said = format!("dmarc: file name: {NAME}\ndmarc: subject: {SUBJECT}\n");
    assert_eq!((ended.status, ended.said), (0, said));
    let first = "<?xml version=\"1.0\" encoding=\"UTF-8\"?><feedback ";
    assert!(ended.printed.starts_with(first), "{}", ended.printed);
    // No line end is added.
    assert!(ended.printed.ends_with("</feedback>"), "{}", ended.printed);
    assert_eq!(ended.printed.matches("<record>").count(), 4);
    let folder = Folder::new();
    let from_input = folder.dmarc_reading(&["--report", "-"], example().as_bytes());
    assert_eq!(from_input.printed, ended.printed);
    let crlf = run(&["--report"], &example().replace('\n', "\r\n"));
    assert_eq!(crlf.printed, ended.printed);
}

#[test]
fn the_file_name_or_the_subject_alone() {
    let name = format!("{NAME}\n");
    ends(&run(&["--report", "--name"], &example()), 0, &name, &[]);
    ends(&run(&["--name", "--report"], &example()), 0, &name, &[]);
    let subject = format!("{SUBJECT}\n");
    ends(
        &run(&["--report", "--subject"], &example()),
        0,
        &subject,
        &[],
    );
}

/// A report is refused in every form with this said.
fn refused(day: &str, number: u8, said: &str) {
    for words in [
        &["--report"][..],
        &["--report", "--name"],
        &["--report", "--subject"],
    ] {
        let printed = format!("refused {number} at 0\n");
        ends(&run(words, day), 3, &printed, &[said]);
    }
}

#[test]
fn refusals_and_their_lines() {
    let day = example();
    let such = "a day has lines such as: row 192.0.2.1 3 none aligned dkim author example.com";
    let (without_rows, _) = day.split_once("row ").expect("a row");
    refused(
        without_rows,
        18,
        &format!("x.txt: refused 18: it has no row; {such}"),
    );
    refused(
        &format!("{day}  spf pass a\n"),
        28,
        "x.txt: line 28: refused 28: a second SPF identifier, and a message has one at the most",
    );
    refused(
        &day.replace("\"Gate & Sons\"", "\"Gate\\009Sons\""),
        19,
        "x.txt: line 9: refused 19: the organization has a tab at place 4, from 0, which is outside \
         32 to 126",
    );
    refused(
        &day.replace("k2", "k..2"),
        11,
        "x.txt: line 20: refused 11: the selector is bad: `k..2` has a dot too many",
    );
    refused(
        &day.replace("id r7", "id r.7"),
        11,
        "x.txt: line 13: refused 11: the id has `.`; it has letters and digits alone",
    );
    refused(
        &day.replace("end 1700006399", "end 1"),
        11,
        "x.txt: line 14: refused 11: begin, 1699920000, is after end, 1 (line 15)",
    );
}

#[test]
fn mistakes_have_their_file_and_line() {
    let day = example().replace("v=DMARC1", "v=DMARC2");
    let why = "its first part is \"v=DMARC2\", and not v=DMARC1: its value is DMARC1 in capitals, \
               and nothing else";
    let said = format!("x.txt: line 6: no policy record: {why}");
    for words in [
        &["--day"][..],
        &["--day", "--csv"],
        &["--day", "--json"],
        &["--report"],
        &["--report", "--name"],
    ] {
        ends(&run(words, &day), 1, "", &[&said]);
    }
    let said = "x.txt: line 1: the count is a number from 1 to 4294967295";
    ends(&run(&["--day"], "row ::1 0 none author a"), 1, "", &[said]);
    let such = "a day has lines such as: row 192.0.2.1 3 none aligned dkim author example.com";
    let said = format!("x.txt: it is empty; {such}");
    ends(&run(&["--day"], ""), 1, "", &[&said]);
    let from_input = Folder::new().dmarc_reading(&["--report", "-"], b"\nrow\n");
    let begin = "dmarc: standard input: line 2: row takes a source address, a count, ";
    assert!(from_input.said.starts_with(begin), "{}", from_input.said);
    assert_eq!((from_input.status, from_input.printed.as_str()), (1, ""));
    let missing = Folder::new().dmarc(&["--day", "y.txt"]);
    ends(&missing, 1, "", &["no such file: y.txt"]);
    let needed = [
        "x.txt: a report needs a line such as: receiver gate.example",
        "x.txt: a report needs a line such as: id r7",
    ];
    let without = example().replace("receiver gate.example\nid r7\n", "");
    ends(&run(&["--report"], &without), 1, "", &needed);
}

/// A day may be longer than a message.
#[test]
fn long_days() {
    let long = format!("{ROWS}{}", "# x\n".repeat(500_000));
    ends(&run(&["--day"], &long), 0, TABLE, &[]);
    let said = "x.txt: it is over 8,388,608 octets, which no day needs";
    let too_long = "#".repeat((8 << 20) + 1);
    ends(&run(&["--day"], &too_long), 1, "", &[said]);
}

/// Words that go not together, and the first line that is said.
const MISUSES: &[(&[&str], &str)] = &[
    (&["--day"], "no file is named"),
    (&["--report", "a", "b"], "more than one file is named"),
    (
        &["--report", "--json", "a"],
        "--report and --json do not go together",
    ),
    (
        &["--day", "--name", "a"],
        "--day and --name do not go together",
    ),
    (
        &["--day", "--next", "a"],
        "--day and --next do not go together",
    ),
    (
        &["--day", "--csv", "--json", "a"],
        "--csv and --json do not go together",
    ),
    (
        &["--report", "--name", "--subject", "a"],
        "--name and --subject do not go together",
    ),
    (
        &["--day", "--report", "a"],
        "--day and --report do not go together",
    ),
    (
        &["--address", "--day", "a", "b"],
        "--address and --day do not go together",
    ),
    (
        &["--address", "--csv", "a", "b"],
        "--address and --csv do not go together",
    ),
    (
        &["--day", "--status", "a"],
        "--day and --status do not go together",
    ),
    (
        &["--report", "--sheet", "a"],
        "--report and --sheet do not go together",
    ),
];

#[test]
fn wrong_words() {
    let usage = Folder::new().dmarc(&["--help"]);
    for line in [
        "\n  ./dmarc --day FILE            ",
        "\n  ./dmarc --report FILE         ",
    ] {
        assert!(usage.printed.contains(line), "{}", usage.printed);
    }
    for (words, line) in MISUSES {
        misused(words, line);
    }
    // After -- no word is an option.
    let folder = Folder::with("--json", ROWS);
    ends(&folder.dmarc(&["--day", "--", "--json"]), 0, TABLE, &[]);
}
