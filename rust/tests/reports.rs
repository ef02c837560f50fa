//! Reports by the interface: a day's rows, the lists beside them, the report, its
//! subject. What must come out is written by hand from RFC 9990 and document 02.

use waslidhaj::policy::{Mode, Request, Settings};
use waslidhaj::raw::{Entry, FindingNumbers, List};
use waslidhaj::{calls, mapped, DayList, Disposition, DmarcResult, Finding, Kind, Lists, Outcome};
use waslidhaj::{Refusal, Report, ReportLists, ReportedIdentifier, Reporter, Row, Subject, ROWS};

const REPORTER: Reporter<'_> = Reporter {
    organization: b"Gate & <Sons>",
    email: b"dmarc@gate.example",
    contact: b"",
    id: b"r7",
    begin: 1_700_000_000,
    end: 1_700_086_399,
};

fn refused<T>(number: u8, place: usize) -> Result<T, Refusal> {
    Err(Refusal { number, place })
}

fn identifier<'a>(
    kind: Kind,
    outcome: Outcome,
    selector: &'a str,
    domain: &'a str,
) -> ReportedIdentifier<'a> {
    ReportedIdentifier {
        kind,
        outcome,
        selector: selector.as_bytes(),
        domain: domain.as_bytes(),
    }
}

fn finding(disposition: Disposition, dkim: bool, spf: bool) -> Finding {
    let result = match dkim || spf {
        true => DmarcResult::Pass,
        false => DmarcResult::Fail,
    };
    Finding {
        result,
        disposition,
        dkim,
        spf,
        domain: "example.com".to_string(),
    }
}

/// A day with three messages of two kinds.
struct Day {
    list: DayList,
    rows: [Row; 4],
    beside: ReportLists,
}

fn day() -> Day {
    let mut list = DayList::new();
    let mut rows = [Row::default(); 4];
    let mut beside = ReportLists::new();
    assert_eq!(list.clear("Example.COM.", &mut rows), Ok(()));
    let both = [
        identifier(Kind::Spf, Outcome::NotPassing, "", "bounce.example.net"),
        identifier(Kind::Dkim, Outcome::Pass, "S1.", "Mail.example.com."),
        identifier(Kind::Dkim, Outcome::TemporaryError, "s2", "example.net"),
    ];
    let entered = [
        (
            mapped([192, 0, 2, 1].into()),
            finding(Disposition::None, true, false),
            beside.author("News.Example.com").expect("a place"),
            beside.set(&both).expect("a place"),
        ),
        (
            mapped([0x2001, 0xdb8, 0, 0, 0, 0, 0, 0x1f].into()),
            finding(Disposition::Reject, false, false),
            beside.author("example.com").expect("a place"),
            beside.set(&[]).expect("a place"),
        ),
    ];
    for index in [0, 1, 0] {
        let (source, finding, author, set) = &entered[index];
        let lists = beside.lists();
        let entered = list.enter(*source, finding, *author, *set, lists, &mut rows);
        assert_eq!(entered, Ok(()));
    }
    Day { list, rows, beside }
}

fn report() -> Report<'static> {
    Report {
        reporter: REPORTER,
        settings: Settings {
            p: Request::Reject,
            np: Request::Quarantine,
            aspf: Mode::Strict,
            ..Settings::default()
        },
    }
}

const EXPECTED: &str = concat!(
    "<?xml version=\"1.0\" encoding=\"UTF-8\"?>",
    "<feedback xmlns=\"urn:ietf:params:xml:ns:dmarc-2.0\">",
    "<report_metadata><org_name>Gate &amp; &lt;Sons&gt;</org_name>",
    "<email>dmarc@gate.example</email><report_id>r7</report_id>",
    "<date_range><begin>1700000000</begin><end>1700086399</end></date_range>",
    "</report_metadata>",
    "<policy_published><domain>example.com</domain><p>reject</p><np>quarantine</np>",
    "<adkim>r</adkim><aspf>s</aspf><testing>n</testing></policy_published>",
    "<record><row><source_ip>192.0.2.1</source_ip><count>2</count>",
    "<policy_evaluated><disposition>pass</disposition><dkim>pass</dkim><spf>fail</spf>",
    "</policy_evaluated></row>",
    "<identifiers><header_from>news.example.com</header_from></identifiers>",
    "<auth_results><dkim><domain>mail.example.com</domain><selector>s1</selector>",
    "<result>pass</result></dkim>",
    "<dkim><domain>example.net</domain><selector>s2</selector>",
    "<result>temperror</result></dkim>",
    "<spf><domain>bounce.example.net</domain><result>fail</result></spf>",
    "</auth_results></record>",
    "<record><row><source_ip>2001:db8:0:0:0:0:0:1f</source_ip><count>1</count>",
    "<policy_evaluated><disposition>reject</disposition><dkim>fail</dkim><spf>fail</spf>",
    "</policy_evaluated></row>",
    "<identifiers><header_from>example.com</header_from></identifiers>",
    "<auth_results></auth_results></record>",
    "</feedback>",
);

#[test]
fn a_report_octet_for_octet() {
    let Day { list, rows, beside } = day();
    let written = report().text(&list, &rows, beside.lists());
    let written = written.map(|text| String::from_utf8(text).expect("plain text"));
    assert_eq!(written.as_deref(), Ok(EXPECTED));
}

#[test]
fn a_report_needs_its_octets_and_no_more() {
    let Day { list, rows, beside } = day();
    let mut out = [7; EXPECTED.len() + 1];
    let short = &mut out[..EXPECTED.len() - 1];
    let written = report().write(&list, &rows, beside.lists(), short);
    assert_eq!(written, refused(10, EXPECTED.len()));
    assert!(out.iter().all(|octet| *octet == 7));
    let room = &mut out[..EXPECTED.len()];
    let written = report().write(&list, &rows, beside.lists(), room);
    assert_eq!(written, Ok(EXPECTED.len()));
    assert_eq!(&out[..EXPECTED.len()], EXPECTED.as_bytes());
    assert_eq!(out[EXPECTED.len()], 7);
}

/// Each fault is found though all that comes after it in the order is wrong too.
#[test]
fn a_report_is_refused_in_its_order() {
    let Day { list, rows, beside } = day();
    let good = beside.lists();
    let cut = Lists { sets: b"", ..good };
    let faulty = |organization, id| Report {
        reporter: Reporter {
            organization,
            id,
            ..REPORTER
        },
        ..report()
    };
    let none: &[Row] = &[];
    let table = [
        (faulty(b"", b"r-7"), DayList::new(), none, cut, (27, 0)),
        (faulty(b"", b"r-7"), list, none, cut, (18, 0)),
        (faulty(b"", b"r-7"), list, &rows, cut, (28, 0)),
        (faulty(b"", b"r-7"), list, &rows, good, (19, 0)),
        (faulty(b"Gate", b"r-7"), list, &rows, good, (11, 0)),
        (report(), list, &rows, good, (10, EXPECTED.len())),
    ];
    for (report, list, rows, lists, (number, place)) in table {
        let written = report.write(&list, rows, lists, &mut []);
        assert_eq!(written, refused(number, place));
    }
}

/// The reporter's texts, its id and its time.
#[test]
fn what_the_reporter_may_not_say() {
    let Day { list, rows, beside } = day();
    let longest = [b'a'; 4097];
    let with = |change: fn(&mut Reporter<'static>)| {
        let mut reporter = REPORTER;
        change(&mut reporter);
        reporter
    };
    let table = [
        (with(|own| own.email = b""), Some(19)),
        (with(|own| own.contact = b"a\nb"), Some(19)),
        (with(|own| own.organization = b"\x7f"), Some(19)),
        (with(|own| own.id = b""), Some(11)),
        (with(|own| own.id = &[b'a'; 64]), None),
        (with(|own| own.id = &[b'a'; 65]), Some(11)),
        (with(|own| own.begin = own.end), None),
        (with(|own| own.begin = own.end + 1), Some(11)),
        (with(|own| own.contact = b"see <a>"), None),
        (
            Reporter {
                contact: &longest,
                ..REPORTER
            },
            Some(19),
        ),
        (
            Reporter {
                contact: &longest[1..],
                ..REPORTER
            },
            None,
        ),
    ];
    for (reporter, expected) in table {
        let report = Report {
            reporter,
            ..report()
        };
        let written = report.text(&list, &rows, beside.lists());
        assert_eq!(written.err().map(|refusal| refusal.number), expected);
    }
}

/// Domains and selectors that are written are judged: 11, and not SPF's selector.
#[test]
fn domains_and_selectors_that_are_written() {
    let long = "a".repeat(64);
    let dkim = |selector, domain| identifier(Kind::Dkim, Outcome::Pass, selector, domain);
    let table = [
        ("a..b", dkim("s1", "example.com"), Some(11)),
        ("example.com", dkim("s1", "a..b"), Some(11)),
        ("example.com", dkim("", "example.com"), Some(11)),
        ("example.com", dkim(&long, "example.com"), Some(11)),
        ("example.com", dkim(&long[1..], "example.com"), None),
        (
            "example.com",
            identifier(Kind::Spf, Outcome::Pass, "..", "example.com"),
            None,
        ),
    ];
    for (domain, identifier, expected) in table {
        let mut day = day();
        let mut beside = ReportLists::new();
        assert_eq!(beside.author(domain), Some(0));
        assert_eq!(beside.set(&[identifier]), Some(0));
        for row in &mut day.rows {
            (row.seen.author, row.seen.set) = (0, 0);
        }
        let written = report().text(&day.list, &day.rows, beside.lists());
        assert_eq!(
            written.err().map(|refusal| refusal.number),
            expected,
            "{domain}, {identifier:?}"
        );
    }
}

/// The policies of a record that is not usable are none.
#[test]
fn a_policy_that_is_not_usable() {
    let Day { list, rows, beside } = day();
    let own = report().settings;
    let sp = Request::Invalid;
    for (p, sp) in [(Request::Absent, own.sp), (sp, own.sp), (own.p, sp)] {
        let settings = Settings { p, sp, ..own };
        let report = Report {
            settings,
            ..report()
        };
        let text = report.text(&list, &rows, beside.lists());
        let text = String::from_utf8(text.expect("a report")).expect("plain text");
        let policies = "<p>none</p><sp>none</sp><np>none</np><adkim>r</adkim><aspf>s</aspf>";
        assert!(text.contains(policies), "{text}");
    }
}

fn entry(author: u32, set: u32) -> Entry {
    Entry {
        source: [1; 16],
        finding: FindingNumbers {
            result: DmarcResult::Pass as u8,
            disposition: 0,
            dkim: 2,
            spf: 0,
        },
        author,
        set,
    }
}

/// 28 comes after 14 and 27, and before 12 and 13.
#[test]
fn entering_looks_at_the_lists() {
    let mut beside = ReportLists::new();
    assert_eq!(beside.author("example.com"), Some(0));
    assert_eq!(beside.set(&[]), Some(0));
    let lists = beside.lists();
    let named = calls::clear(calls::new_list(), b"example.com", &mut []).list;
    let number = |list, entry, domain: &[u8], rows: &mut [Row]| {
        calls::enter(list, entry, domain, lists, rows)
            .refusal
            .number
    };
    let mut failed = entry(9, 9);
    failed.finding.result = DmarcResult::Temperror as u8;
    assert_eq!(number(calls::new_list(), failed, b"", &mut []), 14);
    assert_eq!(number(named, entry(9, 9), b"example.net", &mut []), 27);
    assert_eq!(number(named, entry(1, 0), b"example.com", &mut []), 28);
    assert_eq!(number(named, entry(0, 1), b"example.com", &mut []), 28);
    assert_eq!(number(named, entry(0, 0), b"example.com", &mut []), 12);
    let mut rows = [Row::default(); 1];
    assert_eq!(number(named, entry(0, 0), b"example.com", &mut rows), 0);
    assert_eq!((rows[0].count, rows[0].seen.dkim), (1, 1));
    rows[0].count = u32::MAX;
    assert_eq!(number(named, entry(0, 0), b"example.com", &mut rows), 13);
}

/// Rows match where all is equal but the spare octet, flags as they are read.
#[test]
fn rows_match_by_their_places() {
    let mut beside = ReportLists::new();
    for domain in ["example.com", "news.example.com"] {
        assert!(beside.author(domain).is_some());
    }
    assert_eq!(beside.set(&[]), Some(0));
    let spf = identifier(Kind::Spf, Outcome::Pass, "", "example.com");
    assert_eq!(beside.set(&[spf]), Some(1));
    let mut rows = [Row::default(); 4];
    let list = calls::clear(calls::new_list(), b"example.com", &mut rows).list;
    let enter = |author, set, rows: &mut [Row]| {
        let domain = b"example.com";
        let changed = calls::enter(list, entry(author, set), domain, beside.lists(), rows);
        assert_eq!(changed.refusal.number, 0);
    };
    for (author, set) in [(0, 0), (1, 0), (0, 1)] {
        enter(author, set, &mut rows);
    }
    rows[0].seen.dkim = 255;
    rows[0].seen.spare = 9;
    let before = rows[0].seen;
    enter(0, 0, &mut rows);
    assert_eq!(rows.map(|row| row.count), [2, 1, 1, 0]);
    assert_eq!(rows[0].seen, before);
    let places = rows.map(|row| (row.seen.author, row.seen.set));
    assert_eq!(places, [(0, 0), (1, 0), (0, 1), (0, 0)]);
}

#[test]
fn the_first_256_rows() {
    let Day { list, rows, beside } = day();
    let mut many = vec![Row::default(); ROWS];
    many.push(rows[0]);
    let lists = beside.lists();
    assert_eq!(report().text(&list, &many, lists), refused(18, 0));
    many[ROWS - 1] = rows[1];
    let text = report().text(&list, &many, lists).expect("a report");
    let text = String::from_utf8(text).expect("plain text");
    assert_eq!(text.matches("<record>").count(), 1);
    assert!(text.contains("<source_ip>2001:db8:0:0:0:0:0:1f</source_ip>"));
}

/// 256 rows, each with the longest of all: the constant is enough, and no octet too
/// many.
#[test]
fn the_longest_report() {
    let domain = &"a.".repeat(127)[..253];
    let mut beside = ReportLists::new();
    let own = identifier(Kind::Dkim, Outcome::TemporaryError, domain, domain);
    assert_eq!(beside.author(domain), Some(0));
    assert_eq!(beside.set(&[own; 16]), Some(0));
    let mut row = Row {
        count: u32::MAX,
        ..Row::default()
    };
    row.seen.source = [0x11; 16];
    row.seen.disposition = Disposition::Quarantine as u8;
    let mut list = DayList::new();
    assert_eq!(list.clear(domain, &mut []), Ok(()));
    let reporter = Reporter {
        organization: &[b'&'; 4096],
        email: &[b'&'; 4096],
        contact: &[b'&'; 4096],
        id: &[b'9'; 64],
        begin: u64::MAX,
        end: u64::MAX,
    };
    let settings = Settings {
        p: Request::Quarantine,
        sp: Request::Quarantine,
        np: Request::Quarantine,
        ..Settings::default()
    };
    let report = Report { reporter, settings };
    let text = report.text(&list, &[row; ROWS], beside.lists());
    assert_eq!(text.map(|text| text.len()), Ok(Report::OCTETS));
}

#[test]
fn places_in_the_lists() {
    let mut beside = ReportLists::new();
    let longest = vec![b'a'; 65_536];
    assert_eq!(beside.author(&longest), None);
    assert_eq!(beside.lists(), Lists::default());
    assert_eq!(beside.author(&longest[1..]), Some(0));
    assert_eq!(beside.author(""), Some(1));
    assert_eq!(beside.author(&longest[1..]), Some(0));
    assert_eq!(beside.lists().authors.len(), 65_539 + 4);
    let selector = "s".repeat(256);
    let own = |selector| identifier(Kind::Dkim, Outcome::NotPassing, selector, "a.b");
    assert_eq!(beside.set(&[own(&selector)]), None);
    assert_eq!(beside.set(&[own(&selector[1..])]), Some(0));
    assert_eq!(beside.set(&[own("s"); 8_000]), None);
    let sets = [&b"ST\x01\x09ID\x01\x05\x01\0\xff"[..], &[b's'; 255], b"a.b"];
    assert_eq!(beside.lists().sets, sets.concat());
}

/// A list is in the caller's hands: any octets in it get an answer.
#[test]
fn lists_that_no_call_gave() {
    let Day { rows, beside, .. } = day();
    let made_up = |cleared, octet, length| {
        DayList::from_raw(List {
            cleared,
            domain: [octet; 253],
            length,
        })
    };
    assert_eq!(made_up(0, b'a', 3).domain(), None);
    assert_eq!(made_up(255, b'a', 3).domain(), Some(&b"aaa"[..]));
    assert_eq!(made_up(1, b'a', 999).domain(), Some(&[b'a'; 253][..]));
    let lists = beside.lists();
    let bad = report().text(&made_up(1, b'a', 999), &rows, lists);
    assert_eq!(bad, refused(11, 0));
    let text = report().text(&made_up(9, b'A', 3), &rows, lists);
    let text = String::from_utf8(text.expect("a report")).expect("plain text");
    assert!(text.contains("<domain>aaa</domain><p>"), "{text}");
}

#[test]
fn subjects() {
    let longest = "a.".repeat(127);
    let longest = &longest.as_bytes()[..253];
    let subject = |receiver: &'static [u8], domain: &'static [u8], id: &'static [u8]| Subject {
        receiver,
        domain,
        id,
    };
    let written = |subject: Subject<'_>, room: usize| {
        let mut out = vec![0; room];
        let length = subject.write(&mut out)?;
        Ok(String::from_utf8(out[..length].to_vec()).expect("plain text"))
    };
    let expected = "Report Domain: example.com Submitter: gate.example Report-ID: <R7>";
    let own = subject(b"Gate.example.", b"EXAMPLE.com", b"R7");
    assert_eq!(written(own, 66), Ok(expected.to_string()));
    assert_eq!(written(own, 65), refused(10, 66));
    for bad in [
        subject(b"", b"example.com", b"r7"),
        subject(b"gate.example", b"a..b", b"r7"),
        subject(b"gate.example", b"example.com", b""),
        subject(b"gate.example", b"example.com", b"r-7"),
        subject(b"gate.example", b"example.com", &[b'a'; 65]),
    ] {
        assert_eq!(written(bad, 0), refused(11, 0));
    }
    let whole = Subject {
        receiver: longest,
        domain: longest,
        id: &[b'9'; 64],
    };
    let text = written(whole, Subject::OCTETS).expect("a subject");
    assert_eq!(text.len(), Subject::OCTETS);
}

#[test]
fn meanings_of_the_refusals() {
    let known = "no number of a refusal";
    for number in [11, 18, 19, 27, 28] {
        assert_ne!(Refusal { number, place: 0 }.meaning(), known);
    }
    assert_eq!(
        Refusal {
            number: 29,
            place: 0
        }
        .meaning(),
        known
    );
}
