//! The report of a day: what the proved code writes, and its refusals with their
//! lines.

use crate::days::{day, example};
use evaluator::refusal::Refusal;
use records::report::{told, written, ReportForm, Written};
use records::told::Told;

/// The report of `examples/day.txt`, by hand.
const REPORT: &str = concat!(
    r#"<?xml version="1.0" encoding="UTF-8"?><feedback xmlns="urn:ietf:params:xml:ns:dmarc-2.0">"#,
    "<report_metadata><org_name>Gate &amp; Sons</org_name><email>dmarc@gate.example</email>",
    "<extra_contact_info>https://gate.example/dmarc</extra_contact_info><report_id>r7</report_id>",
    "<date_range><begin>1699920000</begin><end>1700006399</end></date_range></report_metadata>",
    "<policy_published><domain>example.com</domain><p>reject</p><sp>quarantine</sp>",
    "<adkim>r</adkim><aspf>r</aspf><testing>n</testing></policy_published>",
    "<record><row><source_ip>2001:db8:0:0:0:0:0:25</source_ip><count>3</count><policy_evaluated>",
    "<disposition>pass</disposition><dkim>pass</dkim><spf>fail</spf></policy_evaluated></row>",
    "<identifiers><header_from>example.com</header_from></identifiers><auth_results>",
    "<dkim><domain>example.com</domain><selector>s1</selector><result>pass</result></dkim>",
    "<dkim><domain>list.example.net</domain><selector>k2</selector><result>temperror</result></dkim>",
    "<spf><domain>list.example.net</domain><result>fail</result></spf></auth_results></record>",
    "<record><row><source_ip>192.0.2.1</source_ip><count>120</count><policy_evaluated>",
    "<disposition>pass</disposition><dkim>pass</dkim><spf>pass</spf></policy_evaluated></row>",
    "<identifiers><header_from>news.example.com</header_from></identifiers><auth_results>",
    "<dkim><domain>news.example.com</domain><selector>s1</selector><result>pass</result></dkim>",
    "<spf><domain>bounce.example.com</domain><result>pass</result></spf></auth_results></record>",
    "<record><row><source_ip>203.0.113.9</source_ip><count>2</count><policy_evaluated>",
    "<disposition>quarantine</disposition><dkim>fail</dkim><spf>fail</spf></policy_evaluated></row>",
    "<identifiers><header_from>shop.example.com</header_from></identifiers>",
    "<auth_results></auth_results></record>",
    "<record><row><source_ip>198.51.100.7</source_ip><count>41</count><policy_evaluated>",
    "<disposition>reject</disposition><dkim>fail</dkim><spf>fail</spf></policy_evaluated></row>",
    "<identifiers><header_from>example.com</header_from></identifiers><auth_results>",
    "<spf><domain>bounce.example.org</domain><result>fail</result></spf></auth_results></record>",
    "</feedback>",
);
const NAME: &str = "gate.example!example.com!1699920000!1700006399!r7.xml";
const SUBJECT: &str = "Report Domain: example.com Submitter: gate.example Report-ID: <r7>";

#[test]
fn forms() {
    assert_eq!(ReportForm::read(b"plain"), Some(ReportForm::Plain));
    assert_eq!(ReportForm::read(b"name"), Some(ReportForm::Name));
    assert_eq!(ReportForm::read(b"subject"), Some(ReportForm::Subject));
    assert_eq!(ReportForm::read(b"json"), None);
}

#[test]
fn the_report_of_the_example() {
    let own = written(&example()).expect("a whole day").expect("a report");
    let expected = Written {
        report: REPORT.as_bytes().to_vec(),
        name: NAME.as_bytes().to_vec(),
        subject: SUBJECT.as_bytes().to_vec(),
    };
    assert_eq!(own, expected);
}

#[test]
fn what_is_told_in_each_form() {
    let tell = |form| told(form, &example()).expect("a whole day");
    let plain = tell(ReportForm::Plain);
    let notes = [format!("file name: {NAME}"), format!("subject: {SUBJECT}")];
    assert_eq!(plain.printed, REPORT.as_bytes());
    assert_eq!((plain.notes.as_slice(), plain.status), (&notes[..], 0));
    for (form, line) in [(ReportForm::Name, NAME), (ReportForm::Subject, SUBJECT)] {
        let expected = Told {
            printed: format!("{line}\n").into_bytes(),
            ..Told::default()
        };
        assert_eq!(tell(form), expected);
    }
}

/// Lines of a reporter, numbered 1 to 8.
const REPORTER: &str = "domain Example.com.
record \"v=DMARC1; p=none; t=y; adkim=s; np=reject\"
organization \"<A> & 'B'\"
email \"\\\"c\\\" <d@e>\"
receiver Gate.example
id R7
begin 7
end 18446744073709551615
";

/// The report of these rows.
fn report(reporter: &str, rows: &str) -> String {
    let written = written(&day(&format!("{reporter}{rows}"))).expect("a whole day");
    String::from_utf8(written.expect("a report").report).expect("plain text")
}

#[test]
fn entities_and_names_in_lower_case() {
    let rows = "row ::ffff:1.2.3.4 1 none author A.b.\n spf pass C\n dkim fail D.E. S1.F\n";
    let expected = concat!(
        "<report_metadata><org_name>&lt;A&gt; &amp; 'B'</org_name><email>\"c\" &lt;d@e&gt;</email>",
        "<report_id>R7</report_id><date_range><begin>7</begin><end>18446744073709551615</end>",
        "</date_range></report_metadata><policy_published><domain>example.com</domain><p>none</p>",
        "<np>reject</np><adkim>s</adkim><aspf>r</aspf><testing>y</testing></policy_published>",
        "<record><row><source_ip>1.2.3.4</source_ip><count>1</count><policy_evaluated>",
        "<disposition>none</disposition><dkim>fail</dkim><spf>fail</spf></policy_evaluated></row>",
        "<identifiers><header_from>a.b</header_from></identifiers><auth_results>",
        "<dkim><domain>d.e</domain><selector>s1.f</selector><result>fail</result></dkim>",
        "<spf><domain>c</domain><result>pass</result></spf></auth_results></record></feedback>",
    );
    assert!(report(REPORTER, rows).ends_with(expected));
    let contact = format!("{REPORTER}contact \"x&y\"\n");
    let element = "</email><extra_contact_info>x&amp;y</extra_contact_info><report_id>";
    assert!(report(&contact, rows).contains(element));
    let empty = format!("{REPORTER}contact \"\"\n");
    assert_eq!(report(&empty, rows), report(REPORTER, rows));
}

#[test]
fn a_record_that_is_not_usable() {
    let reporter = REPORTER.replace("p=none", "p=often");
    let own = day(&format!("{reporter}row ::1 1 none author a\n"));
    let plain = told(ReportForm::Plain, &own).expect("a whole day");
    let element = "<p>none</p><sp>none</sp><np>none</np><adkim>s</adkim>";
    assert!(String::from_utf8_lossy(&plain.printed).contains(element));
    let said = "x.txt: line 2: the record is not usable, so the report has none for p, sp and np";
    assert_eq!((plain.notes[2].as_str(), plain.notes.len()), (said, 3));
    let name = told(ReportForm::Name, &own).expect("a whole day");
    assert_eq!(name.notes.len(), 0);
}

/// These lines are refused, in each form, with this said.
fn refused(reporter: &str, rows: &str, number: u8, said: &[&str]) {
    let own = day(&format!("{reporter}{rows}"));
    let refusal = Refusal::new(number, 0);
    assert_eq!(written(&own), Ok(Err(refusal)), "{said:?}");
    for form in [ReportForm::Plain, ReportForm::Name, ReportForm::Subject] {
        let expected = Told {
            printed: format!("refused {number} at 0\n").into_bytes(),
            notes: said.iter().map(|line| format!("x.txt: {line}")).collect(),
            status: 3,
        };
        assert_eq!(told(form, &own), Ok(expected));
    }
}

const ROW: &str = "row ::1 1 none author a\n";

#[test]
fn refusals_with_their_lines() {
    let such = "a day has lines such as: row 192.0.2.1 3 none aligned dkim author example.com";
    refused(
        REPORTER,
        "",
        18,
        &[&format!("refused 18: it has no row; {such}")],
    );
    let two = format!("{ROW} spf pass a\n spf fail a\n");
    refused(
        REPORTER,
        &two,
        28,
        &["line 11: refused 28: a second SPF identifier, and a message has one at the most"],
    );
    let many = format!("{ROW}{}", " dkim pass a b\n".repeat(17));
    refused(
        REPORTER,
        &many,
        28,
        &[
            "line 26: refused 28: the 17th identifier, and a message has 16 at the most; \
           leave out some whose outcome is fail",
        ],
    );
    let with = |line: &str, other: &str, number, said: &str| {
        refused(&REPORTER.replace(line, other), ROW, number, &[said]);
    };
    with(
        "\"<A> & 'B'\"",
        "\"\"",
        19,
        "line 3: refused 19: the organization is empty",
    );
    with(
        "id R7",
        "id R-7",
        11,
        "line 6: refused 11: the id has `-`; it has letters and digits alone",
    );
    with(
        "end 18446744073709551615",
        "end 6",
        11,
        "line 7: refused 11: begin, 7, is after end, 6 (line 8)",
    );
    with(
        "domain Example.com.",
        "domain example..",
        11,
        "line 1: refused 11: the policy domain is bad: `example.` has a dot too many",
    );
    with(
        "receiver Gate.example",
        "receiver hex:",
        11,
        "line 5: refused 11: the receiver is bad: it is empty",
    );
}

#[test]
fn names_of_rows_that_are_refused() {
    let below = |line: &str, said: &str| refused(REPORTER, &format!("{ROW} {line}\n"), 11, &[said]);
    below(
        "dkim pass a.b. s..1",
        "line 10: refused 11: the selector is bad: `s..1` has a dot too many",
    );
    below(
        "dkim pass a.b hex:",
        "line 10: refused 11: the selector is bad: it is empty",
    );
    below(
        "spf pass .",
        "line 10: refused 11: the identifier's domain is bad: it is empty",
    );
    refused(
        REPORTER,
        "row ::1 1 none author joe@a.b\n",
        11,
        &["line 9: refused 11: the author domain is bad: `joe@a.b` is an address; give its domain \
           alone: a.b"],
    );
}

/// Of two refusals the first in document 02's order is given; a bad policy domain is
/// refused when the list is cleared, before all others.
#[test]
fn the_order_of_refusals() {
    let two = format!("{ROW} spf pass a\n spf fail ..\n");
    let text = REPORTER.replace("\"<A> & 'B'\"", "\"\"");
    let name = text.replace("id R7", "id R-7");
    let number = |reporter: &str, rows: &str| {
        let refused = written(&day(&format!("{reporter}{rows}"))).expect("a whole day");
        refused.expect_err("a refusal").number
    };
    assert_eq!(number(&name, ""), 18);
    assert_eq!(number(&name, &two), 28);
    assert_eq!(number(&name, ROW), 19);
    let domain = REPORTER.replace("Example.com.", "..");
    assert_eq!(number(&domain, ""), 11);
}

#[test]
fn a_day_without_some_lines() {
    let said = "x.txt: a report needs a line such as: id r7\n\
                x.txt: a report needs a line such as: begin 2023-11-14T00:00:00Z";
    let lines = REPORTER.replace("id R7\nbegin 7\n", "") + ROW;
    assert_eq!(written(&day(&lines)), Err(said.to_string()));
    let told = told(ReportForm::Name, &day(&lines));
    assert_eq!(told, Err(said.to_string()));
}

/// What has no room in a list beside the rows is a mistake of its row.
#[test]
fn names_longer_than_a_record_of_a_list() {
    let long = "a".repeat(65_536);
    let said = "x.txt: line 9: the row's author domain or all its identifiers are longer than the \
                65535 octets of a list's record";
    let author = format!("row ::1 1 none author {long}\n");
    let set = format!("{ROW} spf pass {}\n", &long[..65_529]);
    for rows in [&author, &set] {
        let lines = format!("{REPORTER}{rows}");
        assert_eq!(written(&day(&lines)), Err(said.to_string()));
    }
    let just = format!("{REPORTER}{ROW} spf pass {}\n", &long[..65_528]);
    assert_eq!(written(&day(&just)), Ok(Err(Refusal::new(11, 0))));
}

/// As many records as a list has rows, as many identifiers as a row has, and all
/// names, numbers and texts as long as they may be.
#[test]
fn the_longest_report() {
    let name = format!("{0}.{0}.{0}.{1}", "a".repeat(63), "b".repeat(61));
    let text = "&".repeat(4096);
    let identifiers = format!(" dkim temperror {name} {name}\n").repeat(16);
    let row = |index: usize| {
        let source = format!("1111:2222:3333:4444:5555:6666:7777:1{index:03x}");
        format!("row {source} 4294967295 quarantine author {name}\n{identifiers}")
    };
    let rows: String = (0..256).map(row).collect();
    let lines = format!(
        "domain {name}\nrecord \"v=DMARC1; p=quarantine; sp=quarantine; np=quarantine\"\n\
         organization \"{text}\"\nemail \"{text}\"\ncontact \"{text}\"\nreceiver {name}\n\
         id {}\nbegin 18446744073709551615\nend 18446744073709551615\n",
        "c".repeat(64)
    );
    assert_eq!(report(&lines, &rows).len(), waslidhaj::Report::OCTETS);
}
