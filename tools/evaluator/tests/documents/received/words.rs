//! Each octet of a report replaced by every other one, put in and left out: held to the
//! slow definition of the form, and what is read to what Ask 9 writes.

use super::slow::Front;
use super::written::reports;
use super::{front_of, whole, with};
use crate::beside::{authors, member, set};
use crate::day::{between, cleared, day, Day};
use evaluator::received::{Reader, Told};
use evaluator::refusal::Refusal;

/// A report with a contact, a second SPF-less record of groups, and short names.
fn short() -> String {
    let mut day = day();
    day.reporter.organization = b"&<";
    day.reporter.email = b"~";
    day.reporter.contact = b">";
    (day.reporter.begin, day.reporter.end) = (9, 10);
    day.policy = "v=DMARC1; p=quarantine; np=none".to_string();
    day.sets = set(&[member(1, 2, "s", "d.e"), member(0, 1, "", "f")]);
    day.authors = authors(&["a.b"]);
    day.list = cleared(b"c");
    let mut second = day.rows[0];
    (second.seen.source, second.seen.dkim) = ([0; 16], 0);
    (second.seen.source[11], second.count) = (7, 42_949_672);
    day.rows.push(second);
    day.text()
}

/// What each front part of a text leaves, by both definitions.
fn fronts(text: &[u8]) -> Vec<(Front, Reader)> {
    let (mut front, mut reader) = (Front::of(reports), Reader::new());
    let mut fronts = vec![(front.clone(), reader.clone())];
    for octet in text {
        front = front.and(*octet).expect("an octet of the form");
        assert!(!matches!(reader.step(&[*octet]).told, Told::Refused(_)));
        fronts.push((front.clone(), reader.clone()));
    }
    fronts
}

/// The refusal of a text, of which so many octets were read.
fn refused(reader: &Reader, text: &[u8], read: usize) -> Option<Refusal> {
    let (mut reader, mut read) = (reader.clone(), read);
    loop {
        let step = reader.step(&text[read..]);
        read += step.read;
        match step.told {
            Told::Row(_) => {}
            Told::More => return reader.end().err(),
            Told::Refused(refusal) => return Some(refusal),
        }
    }
}

/// Holds the texts that differ from one at each place to the slow definition, and gives
/// those that are read.
fn held(text: &[u8], change: impl Fn(&mut Vec<u8>, usize, u8), octets: &[u8]) -> Vec<Vec<u8>> {
    let mut read = Vec::new();
    for (place, (front, reader)) in fronts(text).iter().enumerate().take(text.len()) {
        for octet in octets {
            let mut changed = text.to_vec();
            change(&mut changed, place, *octet);
            let given = refused(reader, &changed, place);
            assert_eq!(given, front.refused(&changed, place), "{octet} at {place}");
            if given.is_none() {
                read.push(changed);
            }
        }
    }
    read
}

fn all_octets() -> Vec<u8> {
    (0..=255).collect()
}

#[test]
fn each_octet_replaced() {
    let replace = |text: &mut Vec<u8>, place: usize, octet: u8| text[place] = octet;
    let read = held(day().text().as_bytes(), replace, &all_octets());
    assert!(read.len() > 3_000, "{}", read.len());
    for text in read {
        let text = String::from_utf8(text).expect("a report in ASCII");
        assert_eq!(written_again(&text), text);
    }
    held(short().as_bytes(), replace, &all_octets());
}

#[test]
fn an_octet_put_in() {
    let insert = |text: &mut Vec<u8>, place: usize, octet: u8| text.insert(place, octet);
    let read = held(short().as_bytes(), insert, &all_octets());
    assert!(read.len() > 500, "{}", read.len());
}

#[test]
fn an_octet_left_out_or_doubled() {
    let remove = |text: &mut Vec<u8>, place: usize, _: u8| {
        text.remove(place);
    };
    let double = |text: &mut Vec<u8>, place: usize, _: u8| text.insert(place, text[place]);
    for text in [day().text(), short()] {
        held(text.as_bytes(), remove, &[0]);
        held(text.as_bytes(), double, &[0]);
    }
}

/// Values at and past their limits, with anything behind.
#[test]
fn values_at_their_limits() {
    let label = "x".repeat(63);
    let three = format!("{label}.{label}.{label}.");
    let dkim = "<dkim><domain>d</domain><selector>s</selector><result>pass</result></dkim>";
    let spf = "<spf><domain>d</domain><result>fail</result></spf>";
    let values = [
        ("org_name", "a".repeat(4096)),
        ("email", "&gt;".repeat(4096)),
        ("report_id", "a".repeat(64)),
        ("begin", "1844674407370955161".to_string()),
        ("end", "18446744073709551615".to_string()),
        ("end", "1700000000".to_string()),
        ("end", "1699999999".to_string()),
        ("count", "429496729".to_string()),
        ("count", "4294967295".to_string()),
        ("header_from", three.clone() + &label[3..]),
        ("header_from", three.clone() + &label[4..]),
        ("domain", three + &label[2..]),
        ("selector", label),
        ("source_ip", "255".to_string()),
        ("source_ip", "256".to_string()),
        ("source_ip", "0:0:0:0:0:fff".to_string()),
        ("source_ip", "0:0:0:0:0:0:fff".to_string()),
        ("source_ip", "1:0:0:0:0:fff".to_string()),
        ("source_ip", "1:2:3:4:5:6:7:8".to_string()),
        ("auth_results", dkim.repeat(15)),
        ("auth_results", dkim.repeat(16)),
        ("auth_results", dkim.repeat(17)),
        ("auth_results", dkim.repeat(15) + spf),
        ("auth_results", dkim.repeat(16) + spf),
        ("auth_results", spf.repeat(2)),
    ];
    for (name, value) in values {
        let text = with(name, &value);
        let end = front_of(name, &value).len();
        assert_eq!(
            whole(text.as_bytes()).1,
            Front::of(reports).refused(text.as_bytes(), 0)
        );
        behind_each_octet(text.as_bytes(), end);
    }
}

/// Holds a text with any octet put in at a place to the slow definition, if its front
/// part is of the form.
fn behind_each_octet(text: &[u8], place: usize) {
    let mut front = Front::of(reports);
    for octet in &text[..place] {
        match front.and(*octet) {
            Ok(next) => front = next,
            Err(_) => return,
        }
    }
    let mut reader = Reader::new();
    assert_eq!(reader.step(&text[..place]).told, Told::More);
    for octet in all_octets() {
        let mut changed = text.to_vec();
        changed.insert(place, octet);
        let given = refused(&reader, &changed, place);
        assert_eq!(given, front.refused(&changed, place), "{octet} at {place}");
    }
}

/// The report that is written from what a text of one record has in it.
fn written_again(text: &str) -> String {
    let word = |name: &str| between(text, &format!("<{name}>"), &format!("</{name}>")).to_string();
    let leaked = |name: &str| {
        let text = word(name).replace("&lt;", "<").replace("&gt;", ">");
        &*text.replace("&amp;", "&").into_bytes().leak()
    };
    let number = |word: &str| {
        ["fail", "pass", "temperror"]
            .iter()
            .position(|own| *own == word)
    };
    let outcome = |text: &str| number(between(text, "<result>", "</result>")).expect("one") as u8;
    let (head, rest) = text.split_once("<auth_results>").expect("results");
    let evaluated = between(head, "<policy_evaluated>", "</policy_evaluated>");
    let flag = |name: &str| u8::from(evaluated.contains(&format!("<{name}>pass<")));
    let mut row = crate::day::row(word("count").parse().expect("a count"));
    row.seen.source = whole(text.as_bytes()).0[0].source;
    (row.seen.dkim, row.seen.spf) = (flag("dkim"), flag("spf"));
    let (dkim, spf) = rest.split_once("<spf>").expect("both");
    let domain = |text| between(text, "<domain>", "</domain>");
    let policy = ["p", "sp", "np", "adkim", "aspf"].map(|tag| format!("{tag}={}", word(tag)));
    let mut day = Day {
        list: cleared(word("domain").as_bytes()),
        rows: vec![row],
        authors: authors(&[&word("header_from")]),
        sets: set(&[
            member(1, outcome(dkim), &word("selector"), domain(dkim)),
            member(0, outcome(spf), "", domain(spf)),
        ]),
        policy: format!("v=DMARC1; {}; t={}", policy.join("; "), word("testing")),
        ..day()
    };
    day.reporter.organization = leaked("org_name");
    day.reporter.email = leaked("email");
    day.reporter.id = leaked("report_id");
    day.reporter.begin = word("begin").parse().expect("a begin");
    day.reporter.end = word("end").parse().expect("an end");
    day.text()
}
