//! Reports held to the schema of RFC 9990, appendix A (`report.xsd`), by
//! xmllint. Where it is not on the machine the tests say that they are skipped.

use std::collections::{BTreeMap, HashSet};
use std::fs;
use std::io::{self, Write};
use std::path::{Path, PathBuf};
use std::process::Command;

use crate::days::{example, generated_day};
use records::report::written;
use sheets::day::Day;

const SCHEMA: &str = include_str!("report.xsd");

/// A new folder by its name.
pub fn folder(name: &str) -> PathBuf {
    let folder = Path::new(env!("CARGO_TARGET_TMPDIR")).join(name);
    if folder.exists() {
        fs::remove_dir_all(&folder).expect("an old folder goes");
    }
    fs::create_dir_all(&folder).expect("a folder in the target folder");
    folder
}

/// Whether a program is on the machine; if it is not, that something is skipped is
/// said.
pub fn has(program: &str, skipped: &str) -> bool {
    let has = Command::new(program).arg("--version").output().is_ok();
    if !has {
        let since = format!("since {program} is not on this machine");
        let _ = writeln!(io::stderr(), "SKIPPED: {skipped}, {since}");
    }
    has
}

pub fn report(day: &Day) -> Vec<u8> {
    let written = written(day).expect("a whole day");
    written.expect("a report").report
}

/// Whether each report is valid by a schema, by one run of xmllint.
fn valid(name: &str, schema: &str, reports: &BTreeMap<String, Vec<u8>>) -> BTreeMap<String, bool> {
    let folder = folder(name);
    fs::write(folder.join("schema"), schema).expect("a file");
    for (file, report) in reports {
        fs::write(folder.join(file), report).expect("a file");
    }
    let ran = Command::new("xmllint")
        .args(["--noout", "--nonet", "--schema", "schema"])
        .args(reports.keys())
        .current_dir(&folder)
        .output();
    let said = ran.expect("xmllint").stderr;
    let said = String::from_utf8_lossy(&said);
    let lines: HashSet<&str> = said.lines().collect();
    let valid = |file: &String| {
        let is_valid = lines.contains(format!("{file} validates").as_str());
        let is_not = lines.contains(format!("{file} fails to validate").as_str());
        assert!(is_valid != is_not, "{file}: {said}");
        (file.clone(), is_valid)
    };
    reports.keys().map(valid).collect()
}

/// The schema with its elements in its own order: most of its types let them stand
/// in any, and document 02 does not.
fn ordered() -> String {
    SCHEMA.replace("xs:all>", "xs:sequence>")
}

#[test]
fn generated_reports_are_valid() {
    if !has("xmllint", "the schema of reports") {
        return;
    }
    let file = |index| (format!("{index:03}.xml"), report(&generated_day(index)));
    let mut reports: BTreeMap<String, Vec<u8>> = (0..500).map(file).collect();
    reports.insert("example.xml".to_string(), report(&example()));
    for (name, schema) in [("valid", SCHEMA), ("ordered", &ordered())] {
        let valid = valid(name, schema, &reports);
        let not: Vec<&String> = valid.iter().filter(|own| !own.1).map(|own| own.0).collect();
        assert_eq!((not.len(), valid.len()), (0, 501), "{name}: {not:?}");
    }
}

/// What stands in the example's report, and what makes it wrong in its place.
const WRONGS: &[(&str, &str)] = &[
    ("<email>dmarc@gate.example</email>", ""),
    ("<org_name>Gate &amp; Sons</org_name>", ""),
    ("<report_id>r7</report_id>", ""),
    ("<end>1700006399</end>", ""),
    ("<domain>example.com</domain><p>", "<p>"),
    ("<p>reject</p>", "<p>Reject</p>"),
    ("<sp>quarantine</sp>", "<sp></sp>"),
    ("<adkim>r</adkim>", "<adkim>relaxed</adkim>"),
    ("<testing>n</testing>", "<testing>no</testing>"),
    ("<count>3</count>", "<count>three</count>"),
    ("<count>3</count>", ""),
    ("<disposition>reject", "<disposition>defer"),
    ("<spf>fail</spf>", "<spf>temperror</spf>"),
    (
        "<dkim>pass</dkim><spf>fail</spf>",
        "<spf>fail</spf><dkim>pass</dkim>",
    ),
    ("<selector>s1</selector>", ""),
    ("<result>temperror</result>", "<result>error</result>"),
    ("<auth_results></auth_results>", ""),
    ("<header_from>example.com</header_from>", ""),
    ("</record><record>", "</record><x></x><record>"),
    ("dmarc-2.0", "dmarc-1.0"),
    (" xmlns=\"urn:ietf:params:xml:ns:dmarc-2.0\"", ""),
];

#[test]
fn wrong_reports_are_not_valid() {
    if !has("xmllint", "wrong reports and the schema") {
        return;
    }
    let text = String::from_utf8(report(&example())).expect("plain text");
    let wrong = |(index, (part, other)): (usize, &(&str, &str))| {
        assert!(text.contains(part), "{part}");
        (
            format!("{index:02}.xml"),
            text.replacen(part, other, 1).into_bytes(),
        )
    };
    let mut reports: BTreeMap<String, Vec<u8>> = WRONGS.iter().enumerate().map(wrong).collect();
    let (before, rest) = text.split_once("<record>").expect("a record");
    let (_, after) = rest.rsplit_once("</record>").expect("its end");
    let without_records = format!("{before}{after}").into_bytes();
    reports.insert("without-records.xml".to_string(), without_records);
    let valid = valid("wrong", SCHEMA, &reports);
    assert_eq!(valid.len(), WRONGS.len() + 1);
    let wrongly: Vec<&String> = valid.iter().filter(|own| *own.1).map(|own| own.0).collect();
    assert_eq!(wrongly, Vec::<&String>::new());
}

/// Elements in another order are valid by the schema as it is.
#[test]
fn another_order_is_not_valid_where_the_order_counts() {
    if !has("xmllint", "the order of elements") {
        return;
    }
    let text = String::from_utf8(report(&example())).expect("plain text");
    let swapped = [
        (
            "<adkim>r</adkim><aspf>r</aspf>",
            "<aspf>r</aspf><adkim>r</adkim>",
        ),
        (
            "<selector>s1</selector><result>pass</result>",
            "<result>pass</result><selector>s1</selector>",
        ),
    ];
    let swap = |(index, (part, other)): (usize, (&str, &str))| {
        let changed = text.replacen(part, other, 1);
        assert_ne!(changed, text);
        (format!("{index}.xml"), changed.into_bytes())
    };
    let reports: BTreeMap<String, Vec<u8>> = swapped.into_iter().enumerate().map(swap).collect();
    let as_it_is = valid("swapped", SCHEMA, &reports);
    assert!(as_it_is.values().all(|own| *own), "{as_it_is:?}");
    let in_order = valid("swapped-ordered", &ordered(), &reports);
    assert!(in_order.values().all(|own| !own), "{in_order:?}");
}

/// The reporter's texts of a report, as xmllint reads them.
fn read_texts(report: &[u8]) -> String {
    let file = folder("texts").join("report.xml");
    fs::write(&file, report).expect("a file");
    let text = |element: &str| format!("string(//*[local-name()='{element}'])");
    let texts = ["org_name", "email", "extra_contact_info"].map(text);
    let path = format!("concat({}, '|', {}, '|', {})", texts[0], texts[1], texts[2]);
    let ran = Command::new("xmllint")
        .args(["--nonet", "--xpath", &path])
        .arg(file)
        .output();
    String::from_utf8(ran.expect("xmllint").stdout).expect("plain text")
}

#[test]
fn texts_come_back_as_they_were() {
    if !has("xmllint", "texts read back") {
        return;
    }
    for index in 0..60 {
        let day = generated_day(index);
        let whole = day.complete().expect("a whole day");
        let contact = whole.contact.map_or(&[][..], |own| &own.value);
        let texts = [&whole.organization.value, &whole.email.value, contact];
        let texts = texts.map(String::from_utf8_lossy).join("|");
        let read = read_texts(&report(&day));
        assert_eq!(read.strip_suffix('\n'), Some(texts.as_str()), "{index}");
    }
}
