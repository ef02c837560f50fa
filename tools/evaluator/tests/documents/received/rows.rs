//! Reading 170: the rows of written reports.

use super::{whole, Read};
use crate::beside::{authors, member, set};
use crate::day::{cleared, day, Day};
use evaluator::lists::Lists;
use evaluator::message::Kind::{Dkim, Spf};
use evaluator::message::Outcome::{NotPassing, Pass};
use evaluator::rows::{Row, Seen};

#[test]
fn the_row_of_reading_162() {
    let expected = Read {
        source: [0, 0, 0, 0, 0, 0, 0, 0, 0, 0, 255, 255, 192, 0, 2, 1],
        count: 3,
        disposition: 0,
        aligned: [true, false],
        author: "example.com".to_string(),
        identifiers: vec![
            (Dkim, Pass, "s1".to_string(), "mail.example.com".to_string()),
            (
                Spf,
                NotPassing,
                String::new(),
                "bounce.example.net".to_string(),
            ),
        ],
    };
    assert_eq!(whole(day().text().as_bytes()), (vec![expected], None));
}

/// What a report of a day is read as: "the rows written, in order, domains and selectors
/// as it spells them, DKIM before SPF, SPF without selector".
fn written(day: &Day) -> Vec<Read> {
    let lists = Lists {
        authors: &day.authors,
        sets: &day.sets,
    };
    let listed = lists.read();
    let spelled = |text: &[u8]| {
        let text = String::from_utf8(text.to_ascii_lowercase()).expect("a name in ASCII");
        text.strip_suffix('.').unwrap_or(&text).to_string()
    };
    let counted = day.rows.iter().take(256).filter(|row| row.count > 0);
    let read = counted.map(|row| {
        let meant = listed.meant(&row.seen).expect("what the numbers stand for");
        let of = |kind| meant.set.iter().filter(move |own| own.kind == kind);
        let dkim = of(Dkim).map(|own| {
            (
                Dkim,
                own.outcome,
                spelled(own.selector),
                spelled(own.domain),
            )
        });
        let spf = of(Spf).map(|own| (Spf, own.outcome, String::new(), spelled(own.domain)));
        Read {
            source: row.seen.source,
            count: row.count,
            disposition: row.seen.disposition,
            aligned: [row.seen.dkim != 0, row.seen.spf != 0],
            author: spelled(meant.author),
            identifiers: dkim.chain(spf).collect(),
        }
    });
    read.collect()
}

fn reads_back(day: &Day) {
    let text = day.text();
    assert_eq!(whole(text.as_bytes()), (written(day), None), "{text}");
}

/// A day of several rows that differ in all.
fn busy_day() -> Day {
    let source = |number: u8| match number % 4 {
        0 => [0, 0, 0, 0, 0, 0, 0, 0, 0, 0, 255, 255, number, 0, 255, 10],
        1 => [0x20, 1, 0xd, 0xb8, 0, 0, 0, 0, 0, 0, 0, 0, 0, 0, 0, number],
        2 => [0; 16],
        _ => [255; 16],
    };
    let row = |number: u8| Row {
        seen: Seen {
            source: source(number),
            disposition: number % 3,
            dkim: number / 3 % 2,
            spf: number / 6 % 2,
            spare: 0,
            author: u32::from(number % 2),
            set: u32::from(number % 4),
        },
        count: [1, 0, 9, 10, 4_294_967_295][usize::from(number % 5)],
    };
    let many: Vec<_> = (0..16)
        .map(|number| member(1, number % 3, "S.", "D"))
        .collect();
    Day {
        list: cleared(b"Example.COM."),
        rows: (0..60).map(row).collect(),
        authors: authors(&["A.example.", "-_9.b"]),
        sets: [
            set(&[]),
            set(&many),
            set(&[member(0, 2, "not.written", "Spf.Example.")]),
            set(&[
                member(1, 0, "b", "b"),
                member(0, 1, "", "c"),
                member(1, 2, "a.b", "a"),
            ]),
        ]
        .concat(),
        ..day()
    }
}

#[test]
fn written_reports_read_back() {
    reads_back(&day());
    reads_back(&busy_day());
    let mut short = busy_day();
    for _ in 0..30 {
        short.rows.rotate_left(2);
        short.rows.truncate(short.rows.len() - 1);
        reads_back(&short);
    }
}

#[test]
fn texts_and_policies_do_not_matter() {
    let rows = written(&day());
    for (organization, contact) in [("<&>", ""), ("&amp;", "&"), (" ~ ", "\"'")] {
        let mut day = day();
        day.reporter.organization = organization.as_bytes();
        day.reporter.contact = contact.as_bytes();
        for policy in [
            "v=DMARC1; p=none",
            "v=DMARC1; p=reject; np=none; adkim=s; t=y",
            "x",
        ] {
            day.policy = policy.to_string();
            assert_eq!(whole(day.text().as_bytes()), (rows.clone(), None));
        }
    }
}

/// Readings 165 and 222.
#[test]
fn nothing_is_asked_between_records() {
    let mut day = busy_day();
    day.rows = vec![day.rows[5]; 3];
    day.rows[0].seen.author = 1;
    reads_back(&day);
    assert_eq!(written(&day)[1], written(&day)[2]);
    // `dkim` pass without an identifier, beside reject.
    let seen = &mut day.rows[1].seen;
    (seen.disposition, seen.dkim, seen.spf, seen.set) = (2, 1, 1, 0);
    reads_back(&day);
}

/// Reading 225's longest report, and the rows of the 256.
#[test]
fn the_longest_report() {
    let text: &'static [u8] = vec![b'&'; 4096].leak();
    let label = "x".repeat(63);
    let long = format!("{label}.{label}.{label}.{}", &label[2..]);
    let members: Vec<_> = (0..16).map(|_| member(1, 2, &long, &long)).collect();
    let mut row = busy_day().rows[7];
    row.count = u32::MAX;
    (row.seen.source, row.seen.disposition) = ([255; 16], 1);
    (row.seen.author, row.seen.set) = (0, 0);
    let mut day = Day {
        list: cleared(long.as_bytes()),
        rows: vec![row; 256],
        authors: authors(&[&long]),
        sets: set(&members),
        policy: "v=DMARC1; p=quarantine; sp=quarantine; np=quarantine".to_string(),
        ..day()
    };
    day.reporter.organization = text;
    day.reporter.email = text;
    day.reporter.contact = text;
    day.reporter.id = vec![b'z'; 64].leak();
    (day.reporter.begin, day.reporter.end) = (u64::MAX, u64::MAX);
    assert_eq!(day.text().len(), 2_592_802);
    reads_back(&day);
}
