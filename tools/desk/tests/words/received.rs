//! Reports that were received: their rows in each form, several files, packed ones,
//! and refusals with the text around them.

use std::fs;
use std::process::Command;

use crate::ends::{ends, misused};
use desk::root;
use desk::script::{Ended, Folder};

/// Two rows, with what a report needs beside them.
const DAY: &str = "domain example.com
record \"v=DMARC1; p=reject\"
organization \"Gate & Sons\"
email dmarc@gate.example
receiver gate.example
id r7
begin 1
end 2
row 2001:db8::25 3 none aligned dkim author b
  spf fail d
  dkim pass b s
row 198.51.100.7 41 reject author c.b
";
const TABLES: &str = "\
what failed, and from where: 41 of 44 messages
source        count  disposition  dkim         spf          author  identifiers
198.51.100.7     41  reject       not aligned  not aligned  c.b

by policy domain
policy       count  failed  none  quarantine  reject
example.com     44      41     3           0      41

by author domain
author  count  failed  none  quarantine  reject
c.b        41      41     0           0      41
b           3       0     3           0       0

all rows: 2 of 1 report
source        count  disposition  dkim         spf          author  identifiers
198.51.100.7     41  reject       not aligned  not aligned  c.b
2001:db8::25      3  none         aligned      not aligned  b       dkim pass b s, spf fail d
total             3  none
total             0  quarantine
total            41  reject
total            44  all
";

/// The report of a day, as the script writes it.
fn report(day: &str) -> String {
    let written = Folder::with("x.txt", day).dmarc(&["--report", "x.txt"]);
    assert_eq!(written.status, 0, "{}", written.said);
    written.printed
}

/// A folder with a report.
fn received() -> Folder {
    Folder::with("a.xml", report(DAY))
}

fn pack(folder: &Folder, name: &str) {
    let ran = Command::new("gzip")
        .arg(name)
        .current_dir(folder.path())
        .status();
    assert!(ran.expect("gzip").success());
}

#[test]
fn what_failed_comes_first() {
    let folder = received();
    ends(&folder.dmarc(&["--received", "a.xml"]), 0, TABLES, &[]);
    let text = folder.read("a.xml");
    let from_input = folder.dmarc_reading(&["--received", "-"], text.as_bytes());
    ends(&from_input, 0, TABLES, &[]);
    pack(&folder, "a.xml");
    ends(&folder.dmarc(&["--received", "a.xml.gz"]), 0, TABLES, &[]);
}

/// The example is the report of the day that is one, and its rows are the day's.
#[test]
fn the_example() {
    let [day, file] =
        ["examples/day.txt", "examples/received/report.xml"].map(|name| root().join(name));
    let [day, file] = [&day, &file].map(|path| path.to_str().expect("a plain path"));
    let folder = Folder::new();
    let written = folder.dmarc(&["--report", day]).printed;
    assert_eq!(written, fs::read_to_string(file).expect("the example"));
    let rows = folder.dmarc(&["--day", day]).printed;
    let ended = folder.dmarc(&["--received", file]);
    assert_eq!((ended.status, ended.said.as_str()), (0, ""));
    let first = "what failed, and from where: 43 of 166 messages\n";
    assert!(ended.printed.starts_with(first), "{}", ended.printed);
    let last = format!("\nall rows: 4 of 1 report\n{rows}");
    assert!(ended.printed.ends_with(&last), "{}", ended.printed);
}

#[test]
fn several_files() {
    let folder = received();
    let text = folder.read("a.xml");
    folder.write("b.xml", &text);
    pack(&folder, "b.xml");
    let words = ["--received", "a.xml", "b.xml.gz", "-"];
    let ended = folder.dmarc_reading(&words, text.as_bytes());
    assert_eq!((ended.status, ended.said.as_str()), (0, ""));
    let first = "what failed, and from where: 123 of 132 messages\n";
    assert!(ended.printed.starts_with(first), "{}", ended.printed);
    assert!(ended.printed.contains("\nall rows: 6 of 3 reports\n"));
}

#[test]
fn comma_separated_values_and_json() {
    let folder = received();
    let csv = "file,source,count,disposition,dkim,spf,author,identifiers\r\n\
               a.xml,198.51.100.7,41,reject,not aligned,not aligned,c.b,\r\n\
               a.xml,2001:db8::25,3,none,aligned,not aligned,b,\"dkim pass b s, spf fail d\"\r\n";
    ends(
        &folder.dmarc(&["--received", "--csv", "a.xml"]),
        0,
        csv,
        &[],
    );
    let json = folder.dmarc(&["--json", "--received", "a.xml"]);
    assert_eq!((json.status, json.said.as_str()), (0, ""));
    let begin = r#"{"files":[{"file":"a.xml","rows":2,"refused":null}],"failed":[{"file":"a.xml","#;
    assert!(json.printed.starts_with(begin), "{}", json.printed);
    let end = "\"totals\":{\"none\":3,\"quarantine\":0,\"reject\":41,\"all\":44}}\n";
    assert!(json.printed.ends_with(end), "{}", json.printed);
}

/// A report with this in place of that.
fn changed(from: &str, to: &str) -> Ended {
    let text = report(DAY);
    assert!(text.contains(from), "{text}");
    Folder::with("a.xml", text.replace(from, to)).dmarc(&["--received", "a.xml"])
}

#[test]
fn a_number_that_is_too_large() {
    let text = report(DAY);
    let place = text.find("<count>41").expect("a count") + 16;
    let ended = changed("<count>41", "<count>4294967296");
    assert_eq!(ended.status, 3);
    let line = format!("refused 21 at {place} of a.xml\n\n");
    let first = "what failed, and from where: 0 of 3 messages\n";
    assert!(
        ended.printed.starts_with(&(line + first)),
        "{}",
        ended.printed
    );
    let said: Vec<&str> = ended.said.lines().collect();
    let why = format!("dmarc: a.xml: octet {place}: refused 21: count is over its 32 bits");
    assert_eq!(said[0], why);
    let mark = said[2].find('^').expect("a mark");
    assert!(
        said[1][..=mark].ends_with("<count>4294967296"),
        "{}",
        said[1]
    );
    assert_eq!(
        said[3..],
        [
            "dmarc: in <count> stands a number from 1 to 4294967295, without a leading zero",
            "dmarc: a.xml: the row before that was read, and is told",
        ]
    );
}

#[test]
fn a_report_of_another_layout() {
    let ended = changed("?><feedback", "?>\n<feedback");
    let printed = "refused 20 at 38 of a.xml\n";
    assert_eq!((ended.status, ended.printed.as_str()), (3, printed));
    let first = "dmarc: a.xml: octet 38: refused 20: a line end is outside the form of a report\n";
    assert!(ended.said.starts_with(first), "{}", ended.said);
    let layout = "what is read is the form that --report writes\n";
    assert!(ended.said.ends_with(layout), "{}", ended.said);
}

#[test]
fn a_report_that_ends_early() {
    let folder = Folder::with("a.xml", "");
    let ended = folder.dmarc(&["--received", "a.xml"]);
    let printed = "refused 22 at 0 of a.xml\n";
    assert_eq!((ended.status, ended.printed.as_str()), (3, printed));
    let cut = &report(DAY)[..100];
    let from_input = folder.dmarc_reading(&["--received", "--csv", "-"], cut.as_bytes());
    assert_eq!(from_input.status, 3);
    assert_eq!(from_input.printed.lines().count(), 1);
    let first = "dmarc: standard input: octet 100: refused 22: the report ends early\n";
    assert!(from_input.said.starts_with(first), "{}", from_input.said);
}

#[test]
fn files_that_cannot_be_read() {
    let folder = received();
    let missing = folder.dmarc(&["--received", "a.xml", "b.xml"]);
    ends(&missing, 1, "", &["no such file: b.xml"]);
    let directory = folder.dmarc(&["--received", "."]);
    ends(&directory, 1, "", &["a directory, not a file: ."]);
    folder.write("b.gz", "no gzip");
    let packed = folder.dmarc(&["--received", "b.gz"]);
    let begin = "dmarc: b.gz: zcat cannot unpack it: ";
    assert!(packed.said.starts_with(begin), "{}", packed.said);
    assert_eq!((packed.status, packed.printed.as_str()), (1, ""));
    // A packed file that is cut short is no report that ends early.
    pack(&folder, "a.xml");
    let whole = fs::read(folder.path().join("a.xml.gz")).expect("a file");
    folder.write("cut.gz", &whole[..whole.len() / 2]);
    let cut = folder.dmarc(&["--received", "cut.gz"]);
    assert!(cut.said.contains("zcat cannot unpack it"), "{}", cut.said);
    assert_eq!((cut.status, cut.printed.as_str()), (1, ""));
}

/// What does not end is read no further than its refusal.
#[test]
fn an_input_that_does_not_end() {
    let mut command = Command::new("bash");
    let line = "exec \"$0\" --received - < /dev/zero";
    command.args(["-c", line]).arg(root().join("dmarc"));
    desk::script::dmarc();
    let ended = desk::script::ended(command, b"");
    let printed = "refused 20 at 0 of standard input\n";
    assert_eq!((ended.status, ended.printed.as_str()), (3, printed));
}

/// Words that go not together, and the first line that is said.
const MISUSES: &[(&[&str], &str)] = &[
    (&["--received"], "no file is named"),
    (&["--received", "-", "-"], "- is named more than once"),
    (
        &["--received", "--name", "a"],
        "--received and --name do not go together",
    ),
    (
        &["--received", "--explain", "a"],
        "--received and --explain do not go together",
    ),
    (
        &["--day", "--received", "a"],
        "--day and --received do not go together",
    ),
    (
        &["--received", "--csv", "--json", "a"],
        "--csv and --json do not go together",
    ),
    (
        &["--received", "--status", "a"],
        "--received and --status do not go together",
    ),
    (
        &["--received", "--sheet", "a"],
        "--received and --sheet do not go together",
    ),
];

#[test]
fn wrong_words() {
    for (words, line) in MISUSES {
        misused(words, line);
    }
    // After -- no word is an option.
    let folder = Folder::with("--json", report(DAY));
    ends(
        &folder.dmarc(&["--received", "--", "--json"]),
        0,
        TABLES,
        &[],
    );
}
