//! The reporter's texts, ids and times at their limits, and the longest reports.

use super::{each, plain, put, put_author, put_set, row, Named};
use crate::beside::Member;
use crate::domains;
use crate::reports::day::{Day, Reporter};
use records::code::RecordNumbers;

/// Begin and end.
const TIMES: [(u64, u64); 13] = [
    (0, 0),
    (0, 1),
    (1, 0),
    (9, 10),
    (10, 9),
    (7, 7),
    (u64::MAX, u64::MAX),
    (u64::MAX, u64::MAX - 1),
    (u64::MAX - 1, u64::MAX),
    (0, u64::MAX),
    (u64::MAX, 0),
    (1 << 32, (1 << 32) - 1),
    (9_999_999_999, 10_000_000_000),
];

pub fn days() -> Vec<Named> {
    let own = plain().reporter;
    let mut days = each("texts", octets().into_iter().chain(texts()), |day, text| {
        day.reporter.organization = text;
    });
    days.extend(each("emails", texts(), |day, text| {
        day.reporter.email = text
    }));
    days.extend(each("contacts", texts(), |day, text| {
        day.reporter.contact = text
    }));
    days.extend(each("ids", ids(), |day, id| {
        day.reporter.id.clone_from(&id);
        day.subject.id = id;
    }));
    days.extend(each("times", TIMES, |day, (begin, end)| {
        day.reporter = Reporter {
            begin,
            end,
            ..own.clone()
        };
    }));
    days
}

/// Each octet behind another.
fn octets() -> Vec<Vec<u8>> {
    (0..=255).map(|octet| vec![b'a', octet]).collect()
}

/// Texts of one octet, and of lengths about the limit, with and without entities.
fn texts() -> Vec<Vec<u8>> {
    let edges = b"\0\t\n\r\x1f &<>\"'~\x7f\x80\xff";
    let mut texts: Vec<Vec<u8>> = edges.iter().map(|octet| vec![*octet]).collect();
    for length in [0, 1, 4095, 4096, 4097, 8192] {
        texts.extend([b'a', b'&', b'>'].map(|octet| vec![octet; length]));
    }
    let mut last = vec![b'a'; 4096];
    last.push(0);
    texts.push(last);
    texts.push(b"<a href=\"x\">&amp;&lt;&gt;&quot;'</a>".to_vec());
    texts
}

fn ids() -> Vec<Vec<u8>> {
    let mut ids: Vec<Vec<u8>> = (0..=255).map(|octet| vec![b'a', octet, b'Z']).collect();
    ids.extend([0, 1, 63, 64, 65, 66, 5000].map(|length| vec![b'Q'; length]));
    ids
}

/// Reports of 256 rows with 16 identifiers each.
pub fn long_days() -> Vec<Named> {
    let short = longest(b"s1", b"mail.example.com");
    vec![
        ("256 rows of 16 identifiers".to_string(), short),
        ("the longest report".to_string(), longest_of_all()),
    ]
}

/// 256 rows of 16 DKIM identifiers with this selector and domain.
pub fn longest(selector: &[u8], domain: &[u8]) -> Day {
    let mut day = plain();
    put_set(&mut day, &vec![Member::dkim(selector, domain); 16]);
    put(&mut day, &[row(4_000_000_000); 256]);
    day
}

/// All of it as long as can be.
fn longest_of_all() -> Day {
    let longest_domain = domains::longest();
    let mut day = longest(&longest_domain, &longest_domain);
    let mut members = vec![Member::dkim(&longest_domain, &longest_domain); 16];
    for member in &mut members {
        member.outcome = 2;
    }
    put_set(&mut day, &members);
    put_author(&mut day, &longest_domain);
    let mut own = row(u32::MAX);
    (own.seen.source, own.seen.disposition) = ([255; 16], 1);
    day.history.clear(&longest_domain);
    put(&mut day, &[own; 256]);
    day.numbers = RecordNumbers {
        p: 1,
        sp: 1,
        np: 1,
        ..RecordNumbers::default()
    };
    day.reporter = Reporter {
        organization: vec![b'&'; 4096],
        email: vec![b'&'; 4096],
        contact: vec![b'&'; 4096],
        id: vec![b'z'; 64],
        begin: u64::MAX,
        end: u64::MAX,
    };
    day
}
