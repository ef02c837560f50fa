//! The program `dmarc-records`: what it prints, where, and how it ends.

use std::fs::File;
use std::process::Command;

use crate::program::output;

/// Exit status, standard output and standard error.
fn ends(words: &[&str], input: &[u8]) -> (Option<i32>, String, String) {
    let ended = output(env!("CARGO_BIN_EXE_dmarc-records"), words, input);
    let text = |octets: Vec<u8>| String::from_utf8(octets).expect("words in UTF-8");
    (ended.status.code(), text(ended.stdout), text(ended.stderr))
}

/// Ends with 0 and prints this alone.
fn prints(words: &[&str], input: &[u8], expected: &str) {
    let expected = (Some(0), expected.to_string(), String::new());
    assert_eq!(ends(words, input), expected);
}

/// Ends with 1, and says this on standard error alone.
fn fails(words: &[&str], input: &[u8], expected: &str) {
    let expected = (Some(1), String::new(), expected.to_string());
    assert_eq!(ends(words, input), expected);
}

#[test]
fn a_record_is_written() {
    prints(
        &["write", "p=reject", "sp=none", "rua=mailto:a@example.com"],
        b"",
        "v=DMARC1; p=reject; sp=none; rua=mailto:a@example.com\n",
    );
    fails(
        &["write", "p=often", "pct=50"],
        b"",
        "p: \"often\" is not one of none, quarantine, reject\n\
         unknown tag pct; the tags are p, sp, np, adkim, aspf, psd, t, rua\n",
    );
    fails(
        &["write"],
        b"",
        "p is missing; it is one of none, quarantine, reject\n",
    );
}

const LINES: &str = "p: absent
sp: absent
np: absent
adkim: r, the default
aspf: r, the default
psd: u, the default
t: n, the default
rua: absent
usable: no, since p is absent; rua has no valid entry, so the result is permerror
";

#[test]
fn a_record_is_read_usable_or_not() {
    prints(&["read"], b"v=DMARC1", LINES);
    // One line end is not of the text; a second one is.
    prints(&["read"], b"v=DMARC1\n", LINES);
    let (status, _, said) = ends(&["read"], b"v=DMARC1\n\n");
    assert_eq!(status, Some(1));
    assert!(said.starts_with("no policy record: its first part is \"v=DMARC1\\x0a\""));
}

#[test]
fn no_record_ends_with_1() {
    fails(
        &["read"],
        b"v=DMARC1; p=none; P=none\n",
        "no policy record: tag p is written twice\n",
    );
}

/// A text of so many octets, all but the first part an unknown tag's.
fn long(octets: usize) -> Vec<u8> {
    let mut text = b"v=DMARC1; p=none; x=".to_vec();
    text.resize(octets, b'a');
    text
}

#[test]
fn a_text_longer_than_any_record() {
    for end in [b"".as_slice(), b"\n"] {
        let (status, printed, _) = ends(&["read"], &[&long(65_535), end].concat());
        assert_eq!(status, Some(0));
        assert!(printed.starts_with("p: none\n"), "{printed}");
        fails(
            &["read"],
            &[&long(65_536), end].concat(),
            "no policy record: it is over 65,535 octets, and no TXT record has more\n",
        );
    }
}

#[test]
fn an_input_that_does_not_end() {
    let zeros = File::open("/dev/zero").expect("zeros");
    let ended = Command::new(env!("CARGO_BIN_EXE_dmarc-records"))
        .arg("read")
        .stdin(zeros)
        .output();
    let said = ended.expect("an end").stderr;
    assert!(said.starts_with(b"no policy record: it is over "));
}

const CHECK: [&str; 4] = ["address", "plain", "a", "mailto:x@b"];

#[test]
fn an_address_is_checked() {
    let not_known = "ask _dmarc.a\nagreement not known\nasked 1\n".to_string();
    let said = "no answer for _dmarc.a: read as a failed lookup\n".to_string();
    let without = ends(&CHECK, b"");
    assert_eq!(without, (Some(20), not_known.clone(), said));
    let named = [&CHECK[..], &["x.txt"]].concat();
    let said = "no answer in x.txt for _dmarc.a: read as a failed lookup\n".to_string();
    assert_eq!(ends(&named, b""), (Some(20), not_known, said));
    let next = ["address", "next", "a", "mailto:x@b", "x.txt"];
    prints(&next, b"answer _dmarc.a none\n", "_dmarc.b\n");
    let inside = ends(&["address", "next", "a", "mailto:x@A."], b"");
    let printed = "agreement inside\nasked 0\n".to_string();
    assert_eq!(inside, (Some(22), printed, String::new()));
    let refused = ends(&["address", "plain", "a", "x"], b"");
    assert_eq!(
        (refused.0, refused.1.as_str()),
        (Some(3), "refused 23 at 0\n")
    );
    fails(
        &named,
        b"\nanswer\n",
        "x.txt: line 2: answer takes a name and what was answered\n",
    );
    fails(
        &["address", "all", "a", "x"],
        b"",
        "FORM is plain, explain, json or next\n",
    );
}

const DAY: &str = "domain b
record \"v=DMARC1; p=none\"
organization c
email d
receiver e
id f
begin 1
end 2
";
const ROW: &str = "row ::1 1 none author b\n";

#[test]
fn a_day_is_told() {
    let printed = "source,count,disposition,dkim,spf,author,identifiers\r\n\
                   ::1,1,none,not aligned,not aligned,b,\r\n";
    prints(&["day", "csv", "x.txt"], ROW.as_bytes(), printed);
    let (status, printed, said) = ends(&["day", "plain", "x.txt"], ROW.as_bytes());
    assert_eq!((status, said.as_str()), (Some(0), ""));
    assert!(printed.ends_with("\ntotal       0  reject\ntotal       1  all\n"));
    let mistake = format!("{ROW}{ROW}");
    fails(
        &["day", "json", "x.txt"],
        mistake.as_bytes(),
        "x.txt: line 2: the row of line 1 again; give one with the sum of both\n",
    );
    fails(&["day", "name", "x"], b"", "FORM is plain, csv or json\n");
}

#[test]
fn a_report_is_written() {
    let day = format!("{DAY}{ROW}");
    let (status, printed, said) = ends(&["report", "plain", "x.txt"], day.as_bytes());
    let beside =
        "file name: e!b!1!2!f.xml\nsubject: Report Domain: b Submitter: e Report-ID: <f>\n";
    assert_eq!((status, said.as_str()), (Some(0), beside));
    assert!(printed.ends_with("</auth_results></record></feedback>"));
    prints(&["report", "name", "x"], day.as_bytes(), "e!b!1!2!f.xml\n");
    let subject = "Report Domain: b Submitter: e Report-ID: <f>\n";
    prints(&["report", "subject", "x"], day.as_bytes(), subject);
    let (status, printed, said) = ends(&["report", "plain", "x.txt"], DAY.as_bytes());
    assert_eq!((status, printed.as_str()), (Some(3), "refused 18 at 0\n"));
    assert!(
        said.starts_with("x.txt: refused 18: it has no row; "),
        "{said}"
    );
    let such = "x.txt: a report needs a line such as: id r7\n";
    let without = day.replace("id f\n", "");
    fails(&["report", "name", "x.txt"], without.as_bytes(), such);
    fails(
        &["report", "csv", "x"],
        b"",
        "FORM is plain, name or subject\n",
    );
}

/// No more is read than settles that it is too long.
#[test]
fn a_day_that_does_not_end() {
    let zeros = File::open("/dev/zero").expect("zeros");
    let ended = Command::new(env!("CARGO_BIN_EXE_dmarc-records"))
        .args(["day", "plain", "x"])
        .stdin(zeros)
        .output();
    let said = ended.expect("an end").stderr;
    let expected = "x: it is over 8,388,608 octets, which no day needs\n";
    assert_eq!(String::from_utf8_lossy(&said), expected);
}

#[test]
fn a_report_is_read() {
    let day = format!("{DAY}{ROW}");
    let (_, report, _) = ends(&["report", "plain", "x.txt"], day.as_bytes());
    let printed = "file,source,count,disposition,dkim,spf,author,identifiers\r\n\
                   standard input,::1,1,none,not aligned,not aligned,b,\r\n";
    prints(&["received", "csv", "-"], report.as_bytes(), printed);
    let (status, printed, said) = ends(&["received", "plain", "-"], b"<?xml?");
    let line = "refused 20 at 5 of standard input\n";
    assert_eq!((status, printed.as_str()), (Some(3), line));
    let begin = "standard input: octet 5: refused 20: `?` is outside the form of a report\n";
    assert!(said.starts_with(begin), "{said}");
    fails(
        &["received", "name", "-"],
        b"",
        "FORM is plain, csv or json\n",
    );
}

#[test]
fn misuses_get_the_usage() {
    let words: [&[&str]; 9] = [
        &[],
        &["received", "plain"],
        &["day", "plain"],
        &["report"],
        &["report", "plain", "x", "y"],
        &["read", "v=DMARC1"],
        &["walk"],
        &CHECK[..3],
        &[&CHECK[..], &["x", "y"]].concat(),
    ];
    for words in words {
        let (status, printed, said) = ends(words, b"");
        assert_eq!((status, printed.as_str()), (Some(1), ""), "{words:?}");
        assert!(said.starts_with("usage:\n  dmarc-records write "));
    }
}
