//! Days written by hand, one for each odd thing.

mod faults;
mod limits;
mod published;
mod results;
mod rows;
mod subjects;

use super::day::{Day, Reporter, Subject};
use crate::beside::{Beside, Member};
use crate::histories::history::{forged, History};
use evaluator::rows::{Row, Seen};
use records::code::RecordNumbers;

pub use limits::longest;

/// A day with its name.
pub type Named = (String, Day);

/// All of them.
pub fn days() -> Vec<Named> {
    let mut days = vec![("plain".to_string(), plain())];
    days.extend(faults::days());
    days.extend(subjects::days());
    days.extend(rows::days());
    days.extend(published::days());
    days.extend(limits::days());
    days.extend(results::days());
    days.extend(limits::long_days());
    days
}

/// Days that differ from the plain one in one thing each.
fn each<T>(
    name: &str,
    values: impl IntoIterator<Item = T>,
    change: impl Fn(&mut Day, T),
) -> Vec<Named> {
    let changed = values.into_iter().enumerate().map(|(number, value)| {
        let mut day = plain();
        change(&mut day, value);
        (format!("{name} {number}"), day)
    });
    changed.collect()
}

/// One row of 192.0.2.1 with count 3, DKIM aligned, an SPF identifier and a DKIM one;
/// reject, quarantine, reject, aspf=s.
fn plain() -> Day {
    let mut beside = Beside::default();
    beside.author(b"example.com");
    let members = [
        Member::spf(b"bounce.example.net"),
        Member::dkim(b"s1", b"mail.example.com"),
    ];
    beside.set(&members);
    let mut history = History {
        rows: vec![Row::default()],
        beside: vec![beside],
        ..History::default()
    };
    history.clear(b"example.com");
    history.write(0, row(3));
    Day {
        history,
        beside: 0,
        numbers: RecordNumbers {
            p: 2,
            sp: 1,
            np: 2,
            aspf: 1,
            ..RecordNumbers::default()
        },
        reporter: Reporter {
            organization: b"A & B".to_vec(),
            email: b"r@gate.example".to_vec(),
            contact: Vec::new(),
            id: b"r7".to_vec(),
            begin: 1_700_000_000,
            end: 1_700_086_399,
        },
        subject: Subject {
            receiver: b"gate.example".to_vec(),
            domain: b"example.com".to_vec(),
            id: b"r7".to_vec(),
        },
    }
}

fn row(count: u32) -> Row {
    let seen = Seen {
        source: [0, 0, 0, 0, 0, 0, 0, 0, 0, 0, 255, 255, 192, 0, 2, 1],
        dkim: 1,
        ..Seen::default()
    };
    Row { seen, count }
}

/// Puts rows in place of those that are there.
fn put(day: &mut Day, rows: &[Row]) {
    day.history.rows.resize(rows.len(), Row::default());
    for (at, row) in rows.iter().enumerate() {
        day.history.write(at, *row);
    }
}

/// Puts a set in place of the one that is there.
fn put_set(day: &mut Day, members: &[Member]) {
    for beside in &mut day.history.beside {
        beside.sets.clear();
        beside.set(members);
    }
}

/// Puts an author domain in place of the one that is there.
fn put_author(day: &mut Day, domain: &[u8]) {
    for beside in &mut day.history.beside {
        beside.authors.clear();
        beside.author(domain);
    }
}

/// Puts a domain of any octets in the list.
fn put_domain(day: &mut Day, domain: &[u8]) {
    let length = domain.len().min(usize::from(u16::MAX)) as u16;
    day.history.forge(forged(1, domain, length));
}
