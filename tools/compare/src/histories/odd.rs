//! Histories written by hand, one for each odd thing.

mod forged;
pub mod lists;
mod octets;

use super::history::History;
use crate::beside::{Beside, Member};
use crate::domains::{bad, good, longest};
use evaluator::rows::{Entry, Finding, Row, Seen};

const DOMAIN: &[u8] = b"example.com";
const MOST: u32 = u32::MAX;

/// A history with its name.
type Named = (&'static str, History);

/// What the verdict of a number has: its own source.
fn seen(number: u32) -> Seen {
    let mut seen = Seen::default();
    for (octet, given) in seen.source.iter_mut().zip(number.to_le_bytes()) {
        *octet = given;
    }
    seen
}

fn row(number: u32, count: u32) -> Row {
    let seen = seen(number);
    Row { seen, count }
}

/// A fail with this, of a domain.
fn of(seen: Seen, domain: &[u8]) -> Entry {
    Entry {
        source: seen.source,
        finding: Finding {
            result: 2,
            disposition: seen.disposition,
            dkim: seen.dkim,
            spf: seen.spf,
            domain: domain.to_vec(),
        },
        author: seen.author,
        set: seen.set,
    }
}

fn entry(number: u32) -> Entry {
    of(seen(number), DOMAIN)
}

/// Three author domains, and three sets: none, and one of an identifier of each kind.
fn beside() -> Beside {
    let mut beside = Beside::default();
    for domain in ["example.com", "news.example.com", "example.com"] {
        beside.author(domain.as_bytes());
    }
    beside.set(&[]);
    beside.set(&[Member::spf(b"example.net")]);
    beside.set(&[Member::dkim(b"s1", b"example.net")]);
    beside
}

/// Rows of the numbers from 0, with these counts.
fn rows(counts: &[u32]) -> History {
    let numbered = (0..).zip(counts);
    History {
        rows: numbered
            .map(|(number, count)| row(number, *count))
            .collect(),
        beside: vec![beside()],
        ..History::default()
    }
}

/// The same, cleared for example.com.
fn cleared(counts: &[u32]) -> History {
    let mut history = rows(counts);
    history.clear(DOMAIN);
    history
}

/// The same, and then these counts written by somebody else.
fn written(counts: &[u32]) -> History {
    let mut history = cleared(counts);
    for (at, (number, count)) in (0..).zip(counts).enumerate() {
        history.write(at, row(number, *count));
    }
    history
}

/// All of them.
pub fn histories() -> Vec<Named> {
    let mut histories = vec![
        ("nothing happens", rows(&[1, 2, 3])),
        ("never cleared", never_cleared()),
        ("numbers of results and dispositions", numbers()),
        ("cleared for one domain after another", renamed()),
        ("near the list's domain", near()),
        ("final dots", final_dots()),
        ("bad policy domains", refused_clearings()),
        ("rows near one another", neighbours()),
        ("rows with unlisted dispositions", unlisted()),
    ];
    histories.extend(full_lists());
    histories.extend(written_rows());
    histories.extend(octets::histories());
    histories.extend(lists::histories());
    histories.extend(forged::histories());
    histories
}

fn never_cleared() -> History {
    let mut history = rows(&[1, 0, MOST]);
    for number in 0..4 {
        history.enter(entry(number));
    }
    history.enter(of(seen(0), b""));
    history.clear(b"");
    history.enter(entry(0));
    history.enter(of(seen(0), b""));
    history
}

/// Every pair of numbers, for the list's domain and for another, before the
/// first clearing and after it.
fn numbers() -> History {
    let mut history = rows(&[1, 2]);
    for round in 0..2 {
        for result in [0, 1, 2, 3, 4, 5, 255] {
            for disposition in [0, 1, 2, 3, 4, 255] {
                for domain in [DOMAIN, b"example.org"] {
                    let mut entry = of(seen(0), domain);
                    entry.finding.result = result;
                    entry.finding.disposition = disposition;
                    history.enter(entry);
                }
            }
        }
        if round == 0 {
            history.clear(DOMAIN);
        }
    }
    history
}

/// Each good domain after each other one, in either case.
fn renamed() -> History {
    let mut history = rows(&[5, 6, 7]);
    let good = good();
    for first in &good {
        for second in &good {
            history.clear(&first.to_ascii_uppercase());
            history.enter(of(seen(1), first));
            history.clear(&second.to_ascii_lowercase());
            history.enter(of(seen(1), first));
            history.enter(of(seen(1), &second.to_ascii_uppercase()));
            history.enter(of(seen(1), second));
        }
    }
    history
}

/// Every octet with one bit changed, and texts that are shorter or longer.
fn near() -> History {
    let mut history = rows(&[1, 2, 3]);
    for domain in [b"a-b._9.Test".as_slice(), b"c"] {
        history.clear(domain);
        for at in 0..domain.len() {
            for bit in 0..8 {
                let mut text = domain.to_vec();
                if let Some(octet) = text.get_mut(at) {
                    *octet ^= 1 << bit;
                }
                history.enter(of(seen(0), &text));
            }
            let (front, back) = domain.split_at(at);
            history.enter(of(seen(0), front));
            history.enter(of(seen(0), back));
        }
        history.enter(of(seen(0), &[domain, domain].concat()));
        history.enter(of(seen(0), &longest()));
    }
    history.clear(&longest());
    history.enter(of(seen(0), &[longest(), vec![0]].concat()));
    history
}

/// Each good domain cleared without a final dot and with one, and entered with
/// none, one, two and three.
fn final_dots() -> History {
    let mut history = rows(&[1, 2, 3]);
    let with = |domain: &[u8], dots: usize| [domain, &b".".repeat(dots)].concat();
    for domain in good() {
        for cleared in [0, 1, 2, 1] {
            history.clear(&with(&domain, cleared));
            for dots in 0..4 {
                history.enter(of(seen(0), &with(&domain, dots)));
            }
            history.enter(of(seen(0), b"."));
            history.enter(of(seen(0), b""));
        }
    }
    history
}

/// Each bad domain, before the first clearing and after it.
fn refused_clearings() -> History {
    let mut history = rows(&[1, 0, MOST]);
    for _ in 0..2 {
        for domain in bad() {
            history.clear(&domain);
            history.enter(entry(0));
            history.enter(of(seen(0), &domain));
        }
        history.clear(DOMAIN);
        history.clear(DOMAIN);
    }
    history
}

/// Verdicts that differ in one bit of the source, in the disposition, in one flag or
/// in one number: each has its own row.
fn neighbours() -> History {
    let mut kinds = vec![Seen::default()];
    for bit in 0..128 {
        let mut kind = Seen::default();
        if let Some(octet) = kind.source.get_mut(bit / 8) {
            *octet = 1 << (bit % 8);
        }
        kinds.push(kind);
    }
    for number in 1..12 {
        kinds.push(Seen {
            disposition: number % 3,
            dkim: number >> 2 & 1,
            spf: u8::from(number >= 6),
            ..Seen::default()
        });
    }
    for number in 1..9 {
        kinds.push(Seen {
            author: number % 3,
            set: number / 3,
            ..Seen::default()
        });
    }
    let mut history = cleared(&[0; 260]);
    for kind in [kinds.as_slice(), &kinds].concat() {
        history.enter(of(kind, DOMAIN));
    }
    history
}

fn unlisted() -> History {
    let mut history = rows(&[MOST, 4, 0]);
    for row in &mut history.rows {
        row.seen.disposition = 7;
    }
    history.clear(DOMAIN);
    for disposition in [0, 7, 1, 2, 0] {
        let kind = Seen {
            disposition,
            ..seen(0)
        };
        history.enter(of(kind, DOMAIN));
    }
    history
}

/// Lists filled to the end twice, with one verdict more each time.
fn full_lists() -> Vec<Named> {
    let full = |lent: u32| {
        let counts: Vec<u32> = (0..lent).map(|number| number % 3).collect();
        let mut history = rows(&counts);
        for _ in 0..2 {
            history.clear(DOMAIN);
            for number in (0..lent.min(256) + 1).rev() {
                history.enter(entry(number));
            }
            history.enter(entry(0));
            history.enter(entry(lent));
            history.enter(entry(lent.saturating_sub(1)));
        }
        history
    };
    vec![
        ("no rows", full(0)),
        ("a row", full(1)),
        ("2 rows", full(2)),
        ("255 rows", full(255)),
        ("256 rows", full(256)),
        ("257 rows", full(257)),
        ("260 rows", full(260)),
    ]
}

/// What comes only where somebody else writes the rows.
fn written_rows() -> Vec<Named> {
    let mut behind = written(&[3, 0, 4, 0]);
    for number in [2, 3, 1, 5] {
        behind.enter(entry(number));
    }
    let mut limit = written(&[MOST - 2, MOST - 1, MOST]);
    for number in [0, 0, 0, 1, 1, 2, 3] {
        limit.enter(entry(number));
    }
    let mut twins = written(&[5, 0, MOST, 0, 0]);
    twins.write(3, row(2, 1));
    twins.enter(entry(2));
    twins.write(1, row(2, MOST - 1));
    for _ in 0..3 {
        twins.enter(entry(2));
    }
    let mut past = written(&[1; 260]);
    for number in [255, 256, 259, 260] {
        past.enter(entry(number));
    }
    past.write(255, row(300, 0));
    past.enter(entry(256));
    past.write(256, row(256, MOST));
    past.enter(entry(256));
    past.clear(DOMAIN);
    past.enter(entry(257));
    vec![
        ("a match behind a free row", behind),
        ("counts near the limit", limit),
        ("a full row before its twin", twins),
        ("rows past the 256th", past),
    ]
}
