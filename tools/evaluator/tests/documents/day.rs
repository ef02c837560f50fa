//! A day's report for the tests, changed case by case.

use crate::beside::{authors, member, set};
use crate::octets::{record, E};
use evaluator::aggregate::{report, text, Inputs, Reporter};
use evaluator::lists::Lists;
use evaluator::policy;
use evaluator::refusal::Refusal;
use evaluator::rows::{DayList, Row, Seen};

/// What a report is written from, each part to be changed.
#[derive(Clone)]
pub struct Day {
    pub list: DayList,
    pub rows: Vec<Row>,
    pub authors: Vec<u8>,
    pub sets: Vec<u8>,
    /// The policy text at the list's domain.
    pub policy: String,
    pub reporter: Reporter<'static>,
}

/// A row of 192.0.2.1 with a count, disposition none, nothing aligned.
pub fn row(count: u32) -> Row {
    let seen = Seen {
        source: [0, 0, 0, 0, 0, 0, 0, 0, 0, 0, 255, 255, 192, 0, 2, 1],
        ..Seen::default()
    };
    Row { seen, count }
}

/// A list that was cleared for a domain.
pub fn cleared(domain: &[u8]) -> DayList {
    let mut list = DayList::default();
    assert_eq!(list.clear(domain, &mut []), Ok(()));
    list
}

/// A list handed in as cleared, with any octets for its domain.
pub fn handed(domain: &[u8]) -> DayList {
    let mut octets = [b'!'; 253];
    octets[..domain.len()].copy_from_slice(domain);
    DayList::handed(1, &octets, u16::try_from(domain.len()).unwrap())
}

/// Reading 162's day: one row, "192.0.2.1 count 3 none dkim aligned, author
/// example.com, set {SPF bounce.example.net 0, DKIM mail.example.com s1 1}".
pub fn day() -> Day {
    let mut row = row(3);
    row.seen.dkim = 1;
    Day {
        list: cleared(b"example.com"),
        rows: vec![row],
        authors: authors(&["example.com"]),
        sets: set(&[
            member(0, 0, "", "bounce.example.net"),
            member(1, 1, "s1", "mail.example.com"),
        ]),
        policy: E.to_string(),
        reporter: Reporter {
            organization: b"A & B",
            email: b"r@gate.example",
            contact: b"",
            id: b"r7",
            begin: 1_700_000_000,
            end: 1_700_086_399,
        },
    }
}

impl Day {
    fn inputs(&self) -> Inputs<'_> {
        Inputs {
            list: &self.list,
            rows: &self.rows,
            lists: Lists {
                authors: &self.authors,
                sets: &self.sets,
            },
            settings: policy::read(self.policy.as_bytes()).unwrap_or_default(),
            reporter: self.reporter,
        }
    }

    /// The report as text.
    pub fn text(&self) -> String {
        let text = text(&self.inputs()).expect("a report");
        String::from_utf8(text).expect("a report in ASCII")
    }

    /// What the report gives with so many octets lent, which are as it leaves them.
    pub fn lent(&self, octets: usize) -> (Result<usize, Refusal>, Vec<u8>) {
        let mut lent = vec![170; octets];
        (report(&self.inputs(), &mut lent), lent)
    }

    /// The refusal of a report for which there is room enough, or none at all, but for
    /// refusal 10.
    pub fn refused(&self) -> Refusal {
        let (long, lent) = self.lent(5_000);
        let refusal = long.expect_err("a refusal");
        assert!(lent.iter().all(|octet| *octet == 170));
        assert_eq!(self.lent(0).0, Err(refusal));
        refusal
    }

    /// The same day with other sets, the row's being the first.
    pub fn with_set(&self, members: &[Vec<u8>]) -> Day {
        self.with_set_body(&members.concat())
    }

    pub fn with_set_body(&self, body: &[u8]) -> Day {
        Day {
            sets: record(b"ST", body),
            ..self.clone()
        }
    }
}

/// Between two words of a report.
pub fn between<'t>(text: &'t str, begin: &str, end: &str) -> &'t str {
    let (_, rest) = text.split_once(begin).expect("a beginning");
    let (part, _) = rest.split_once(end).expect("an end");
    part
}
