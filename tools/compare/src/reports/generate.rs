//! Days from a seed: mostly ones whose report can be written, and ones with a fault, or
//! several.

mod reporter;

use super::day::{Day, Subject};
use crate::beside::{any_octets, good, spoilt};
use crate::domains::{any_good, any_spelling, bad, one};
use crate::histories::history::forged;
use crate::publishing::generate::numbers;
use evaluator::rows::{Entry, Finding, Row, Seen};
use sheets::random::Random;

/// Counts that a row may have.
const COUNTS: [u32; 6] = [1, 2, 10, 999, 1_000_000, u32::MAX];
/// What stands before an address that is mapped.
const MAPPED: [u8; 12] = [0, 0, 0, 0, 0, 0, 0, 0, 0, 0, 255, 255];
/// What can be wrong with a day, as many times as it may come.
const FAULTS: [Fault; 12] = [
    Fault::NeverCleared,
    Fault::NoCount,
    Fault::Number,
    Fault::Number,
    Fault::Lists,
    Fault::Lists,
    Fault::Lists,
    Fault::Text,
    Fault::Text,
    Fault::IdOrTimes,
    Fault::IdOrTimes,
    Fault::ListsDomain,
];

#[derive(Clone, Copy, Default, PartialEq, Eq)]
enum Fault {
    #[default]
    NeverCleared,
    NoCount,
    /// A row's number past its list.
    Number,
    /// A list beside the rows, and a row that stands for what is wrong there.
    Lists,
    Text,
    IdOrTimes,
    /// A list that no call gave.
    ListsDomain,
}

/// The day of a seed and index.
pub fn day(seed: u64, index: u64) -> Day {
    let mut random = Random::of(seed ^ 0x0064_6179, index);
    let faults = faults(&mut random);
    let (authors, sets) = (random.between(1, 4), random.between(1, 4));
    let beside = good(&mut random, authors, sets);
    let mut maker = Maker {
        day: Day {
            numbers: numbers(&mut random),
            reporter: reporter::any(&mut random),
            ..Day::default()
        },
        places: [authors as u32, sets as u32],
        random,
    };
    maker.day.history.beside.push(beside);
    maker.gather(&faults);
    for fault in faults {
        maker.spoil(fault);
    }
    maker.day.subject = maker.subject();
    maker.day
}

/// Mostly none, else one, or several in any order.
fn faults(random: &mut Random) -> Vec<Fault> {
    let count = match random.below(100) {
        0..=59 => 0,
        60..=84 => 1,
        _ => random.between(2, 4),
    };
    (0..count).map(|_| random.pick(&FAULTS)).collect()
}

struct Maker {
    random: Random,
    day: Day,
    /// How many author domains and sets there are.
    places: [u32; 2],
}

impl Maker {
    /// Rows that hold anything, a clearing, then verdicts, and rows that others write.
    fn gather(&mut self, faults: &[Fault]) {
        let lent = match self.random.below(100) {
            0..=1 => self.random.between(250, 262),
            2..=9 => self.random.between(9, 40),
            _ => self.random.between(1, 8),
        };
        let lent_rows = (0..lent).map(|_| self.row()).collect();
        self.day.history.rows = lent_rows;
        let domain = any_good(&mut self.random);
        if !faults.contains(&Fault::NeverCleared) {
            self.day.history.clear(&domain);
        }
        if faults.contains(&Fault::NoCount) {
            return self.without_counts();
        }
        for _ in 0..self.random.between(1, lent + 2) {
            let entry = self.entry(&domain);
            self.day.history.enter(entry);
        }
        if self.random.percent(60) {
            for _ in 0..self.random.between(1, lent) {
                let (at, row) = (self.random.below(lent), self.row());
                self.day.history.write(at, row);
                if self.random.percent(10) {
                    self.day.history.write(at + 1, row);
                }
            }
        }
    }

    /// Rows that have none, but for those past the 256th.
    fn without_counts(&mut self) {
        for at in 0..self.day.history.rows.len() {
            let count = if at < 256 { 0 } else { 5 };
            let row = Row {
                count,
                ..self.row()
            };
            self.day.history.write(at, row);
        }
    }

    /// What a row counts, all of it good.
    fn seen(&mut self) -> Seen {
        let [authors, sets] = self.places;
        let random = &mut self.random;
        Seen {
            source: source(random),
            disposition: random.below(3) as u8,
            dkim: random.below(2) as u8,
            spf: random.below(2) as u8,
            spare: 0,
            author: random.below(authors as usize) as u32,
            set: random.below(sets as usize) as u32,
        }
    }

    /// A row of any octets, its numbers within their lists.
    fn row(&mut self) -> Row {
        let mut seen = self.seen();
        let random = &mut self.random;
        if random.percent(50) {
            seen.spare = random.octet();
        }
        if random.percent(15) {
            seen.disposition = random.octet();
        }
        if random.percent(15) {
            (seen.dkim, seen.spf) = (random.octet(), random.octet());
        }
        let count = match random.below(10) {
            0..=2 => 0,
            3 => random.number() as u32,
            _ => random.pick(&COUNTS),
        };
        Row { seen, count }
    }

    /// A verdict that is mostly entered.
    fn entry(&mut self, domain: &[u8]) -> Entry {
        let seen = self.seen();
        let random = &mut self.random;
        Entry {
            source: seen.source,
            finding: Finding {
                result: random.between(1, 2) as u8,
                disposition: seen.disposition,
                dkim: seen.dkim,
                spf: seen.spf,
                domain: any_spelling(random, domain),
            },
            author: seen.author,
            set: seen.set,
        }
    }

    fn spoil(&mut self, fault: Fault) {
        match fault {
            // They are made so.
            Fault::NeverCleared | Fault::NoCount => {}
            Fault::Number => {
                let [authors, sets] = self.places;
                let mut row = self.row();
                let past = self.random.pick(&[0, 1, 252, 65_532, u32::MAX >> 1]);
                match self.random.percent(50) {
                    true => row.seen.author = authors + past,
                    false => row.seen.set = sets + past,
                }
                self.put(row);
            }
            Fault::Lists => {
                let beside = self.day.lists();
                self.day
                    .history
                    .beside
                    .push(spoilt(&mut self.random, beside));
                self.day.beside += 1;
                let [authors, sets] = self.places;
                let mut row = self.row();
                match self.random.below(4) {
                    0 => row.seen.author = authors,
                    1..=2 => row.seen.set = sets,
                    _ => {}
                }
                self.put(row);
            }
            Fault::Text => reporter::spoil_text(&mut self.random, &mut self.day.reporter),
            Fault::IdOrTimes => reporter::spoil(&mut self.random, &mut self.day.reporter),
            Fault::ListsDomain => self.forge(),
        }
    }

    /// Somebody writes a row, mostly one of the list and with a count.
    fn put(&mut self, mut row: Row) {
        let lent = self.day.history.rows.len();
        if row.count == 0 && self.random.percent(80) {
            row.count = 1;
        }
        let at = self.random.below(lent);
        self.day.history.write(at, row);
    }

    /// Somebody writes the list: a domain in any spelling, a bad one, any octets, or a
    /// list never cleared.
    fn forge(&mut self) {
        let random = &mut self.random;
        let domain = match random.below(4) {
            0 => any_good(random),
            1 => one(random, &bad()),
            2 => [any_good(random), any_octets(random, 2)].concat(),
            _ => any_octets(random, 253),
        };
        let length = match random.percent(80) {
            true => domain.len() as u16,
            false => random.number() as u16,
        };
        let cleared = random.pick(&[1, 1, 1, 2, 128, 255, 0]);
        self.day.history.forge(forged(cleared, &domain, length));
    }

    fn subject(&mut self) -> Subject {
        let random = &mut self.random;
        let mut domain = || match random.percent(92) {
            true => any_good(random),
            false => one(random, &bad()),
        };
        Subject {
            receiver: domain(),
            domain: domain(),
            id: self.day.reporter.id.clone(),
        }
    }
}

/// A source address: mapped, nearly mapped, of groups with zeros, or any.
fn source(random: &mut Random) -> [u8; 16] {
    let mut source = [0; 16];
    for octet in &mut source {
        *octet = match random.percent(40) {
            true => random.pick(&[0, 0, 1, 9, 10, 99, 100, 255]),
            false => random.octet(),
        };
    }
    let kind = random.below(10);
    let mut front = if kind < 6 { MAPPED } else { [0; 12] };
    if kind == 5 {
        let at = random.below(front.len());
        front[at] ^= 1 << random.below(8);
    }
    if kind < 7 {
        for (octet, own) in source.iter_mut().zip(front) {
            *octet = own;
        }
    }
    source
}
