//! Histories from a seed: few kinds of verdicts, so that rows match often, or so
//! many that a list fills up.

use super::history::{forged, History};
use crate::beside::{any_octets, good, spoilt};
use crate::domains;
use evaluator::rows::{Entry, Finding, Row, Seen};
use sheets::random::Random;

const LENGTHS: [usize; 9] = [0, 1, 2, 3, 8, 255, 256, 257, 260];
const MOST: u32 = u32::MAX;
const COUNTS: [u32; 8] = [0, 0, 0, 1, 2, MOST - 2, MOST - 1, MOST];
/// Places where a list of 256 rows begins or ends.
const ENDS: [usize; 6] = [0, 1, 254, 255, 256, 257];
/// Result and disposition of an entry: those of a pass or fail, and all others.
const RESULTS: [u8; 2] = [1, 2];
const OTHER_RESULTS: [u8; 6] = [0, 3, 4, 5, 128, 255];
const OTHER_DISPOSITIONS: [u8; 5] = [3, 4, 7, 128, 255];
/// Author domains and sets of the first lists of a history, which are good ones.
const AUTHORS: usize = 3;
const SETS: usize = 3;
/// Lengths of lists that no call gave.
const FORGED: [u16; 8] = [0, 1, 11, 252, 253, 254, 256, u16::MAX];

/// The history of a seed and index.
pub fn history(seed: u64, index: u64) -> History {
    let mut random = Random::of(seed, index);
    let lent = lent(&mut random);
    let kinds = kinds(&mut random, lent);
    let mut maker = Maker {
        good: domains::good(),
        bad: domains::bad(),
        named: None,
        writes: random.percent(40),
        kinds,
        random,
        history: History::default(),
    };
    maker.add_lists();
    maker.start(lent);
    maker.go_on(lent);
    maker.history
}

fn lent(random: &mut Random) -> usize {
    match random.below(4) {
        0 => random.between(0, 20),
        1 if random.percent(30) => random.between(200, 300),
        _ => random.pick(&LENGTHS),
    }
}

/// A source of its own for each number, none like another but in one octet or
/// two.
fn source(number: usize) -> [u8; 16] {
    let mut source = [0; 16];
    if let Some(octet) = source.get_mut(number % 16) {
        *octet = (number / 16 + 1) as u8;
    }
    source
}

/// The verdicts that come again: fewer than there are rows, or more.
fn kinds(random: &mut Random, lent: usize) -> Vec<Seen> {
    let number = match random.below(4) {
        0 => random.between(1, 3),
        1 => random.between(2, 12),
        2 => lent + random.between(0, 6),
        _ => lent / 2 + 1,
    };
    let sources = match random.percent(60) {
        true => number,
        false => number / 3,
    };
    let mut kind = |number: usize| Seen {
        source: source(number % sources.max(1)),
        disposition: random.below(3) as u8,
        dkim: flag(random),
        spf: flag(random),
        spare: 0,
        author: random.below(AUTHORS) as u32,
        set: random.below(SETS) as u32,
    };
    (0..number).map(&mut kind).collect()
}

/// A flag: mostly 0 or 1.
fn flag(random: &mut Random) -> u8 {
    match random.percent(85) {
        true => random.below(2) as u8,
        false => random.octet(),
    }
}

struct Maker {
    random: Random,
    history: History,
    kinds: Vec<Seen>,
    good: Vec<Vec<u8>>,
    bad: Vec<Vec<u8>>,
    /// The domain of the last good clearing.
    named: Option<Vec<u8>>,
    /// Whether others write the rows.
    writes: bool,
}

impl Maker {
    /// Good lists, and others of every quality.
    fn add_lists(&mut self) {
        let random = &mut self.random;
        let first = good(random, AUTHORS, SETS);
        self.history.beside.push(first.clone());
        for _ in 0..random.between(0, 2) {
            let other = spoilt(random, first.clone());
            self.history.beside.push(other);
        }
    }

    /// The lent rows, mostly a first clearing, and now and then all kinds.
    fn start(&mut self, lent: usize) {
        let empty = self.random.percent(15);
        for _ in 0..lent {
            let row = match empty {
                true => Row::default(),
                false => self.row(),
            };
            self.history.rows.push(row);
        }
        if self.random.percent(85) {
            self.clear_well();
        }
        if self.random.percent(20) {
            self.fill(lent);
        }
    }

    fn go_on(&mut self, lent: usize) {
        let most = if self.random.percent(20) { 120 } else { 30 };
        for _ in 0..self.random.between(1, most) {
            match self.random.below(100) {
                0..=3 => self.clear_well(),
                4..=5 => self.clear_badly(),
                6 => {
                    self.clear_well();
                    self.clear_well();
                }
                7..=8 => self.fill(lent),
                9..=10 => self.forge(),
                11..=30 if self.writes => self.write(),
                _ => self.enter(),
            }
        }
    }

    fn clear_well(&mut self) {
        let at = match self.random.percent(50) {
            true => 0,
            false => self.random.below(self.good.len()),
        };
        let domain = self.good.get(at).cloned().unwrap_or_default();
        let spelled = domains::any_spelling(&mut self.random, &domain);
        self.history.clear(&spelled);
        self.named = Some(domain);
    }

    fn clear_badly(&mut self) {
        let domain = domains::one(&mut self.random, &self.bad);
        self.history.clear(&domain);
    }

    /// Verdicts of all kinds in turn.
    fn fill(&mut self, lent: usize) {
        let kinds = self.kinds.clone();
        for seen in kinds.into_iter().take(lent + 2) {
            let domain = self.own_domain();
            self.enter_as(seen, domain);
        }
    }

    fn enter(&mut self) {
        let seen = self.seen();
        let domain = self.domain();
        self.enter_as(seen, domain);
    }

    fn enter_as(&mut self, seen: Seen, domain: Vec<u8>) {
        let result = match self.random.percent(96) {
            true => self.random.pick(&RESULTS),
            false => self.random.pick(&OTHER_RESULTS),
        };
        let disposition = match self.random.percent(97) {
            true => seen.disposition,
            false => self.random.pick(&OTHER_DISPOSITIONS),
        };
        let finding = Finding {
            result,
            disposition,
            dkim: seen.dkim,
            spf: seen.spf,
            domain,
        };
        let beside = self.beside();
        let (author, set) = match beside > 0 && self.random.percent(60) {
            true => (seen.author, SETS as u32),
            false => (
                self.number(seen.author, AUTHORS),
                self.number(seen.set, SETS),
            ),
        };
        let entry = Entry {
            source: seen.source,
            finding,
            author,
            set,
        };
        self.history.enter_beside(entry, beside);
    }

    /// Mostly the good lists; now and then others, or past all of the history's, which
    /// are empty ones.
    fn beside(&mut self) -> usize {
        match self.random.percent(88) {
            true => 0,
            false => self.random.between(0, self.history.beside.len()),
        }
    }

    /// A place, now and then one that is near it or past a list of so many.
    fn number(&mut self, number: u32, most: usize) -> u32 {
        match self.random.percent(96) {
            true => number,
            false => self.other_number(number, most),
        }
    }

    fn other_number(&mut self, number: u32, most: usize) -> u32 {
        let most = most as u32;
        let high = self.random.pick(&[1 << 8, 1 << 16, 1 << 31]);
        self.random.pick(&[most, most + 1, MOST, number | high])
    }

    /// The domain that the list now serves, in any spelling.
    fn own_domain(&mut self) -> Vec<u8> {
        let first = self.good.first().cloned();
        let own = self.named.clone().or(first).unwrap_or_default();
        domains::any_spelling(&mut self.random, &own)
    }

    fn domain(&mut self) -> Vec<u8> {
        match self.random.below(100) {
            0..=2 => domains::one(&mut self.random, &self.good),
            3 => domains::one(&mut self.random, &self.bad),
            4..=7 => {
                let own = self.own_domain();
                domains::near(&mut self.random, &own)
            }
            _ => self.own_domain(),
        }
    }

    /// One of the kinds, now and then with one part of it changed.
    fn seen(&mut self) -> Seen {
        let mut seen = self.random.pick(&self.kinds);
        if self.random.percent(10) {
            match self.random.below(6) {
                0 => seen.source = source(self.random.below(600)),
                1 => seen.disposition = self.random.below(3) as u8,
                2 => seen.dkim = flag(&mut self.random),
                3 => seen.spf = flag(&mut self.random),
                4 => seen.author = self.random.below(AUTHORS) as u32,
                _ => seen.set = self.random.below(SETS) as u32,
            }
        }
        seen
    }

    /// A row that holds anything.
    fn row(&mut self) -> Row {
        let mut seen = self.seen();
        if self.random.percent(10) {
            seen.disposition = self.random.pick(&OTHER_DISPOSITIONS);
        }
        if self.random.percent(50) {
            seen.spare = self.random.octet();
        }
        if self.random.percent(8) {
            seen.author = self.other_number(seen.author, AUTHORS);
        }
        if self.random.percent(8) {
            seen.set = self.other_number(seen.set, SETS);
        }
        let count = match self.random.percent(15) {
            true => self.random.number() as u32,
            false => self.random.pick(&COUNTS),
        };
        Row { seen, count }
    }

    /// Somebody else writes the list: a domain near one that it has had, or any octets.
    fn forge(&mut self) {
        let random = &mut self.random;
        let domain = match random.below(4) {
            0 => any_octets(random, 253),
            1 => domains::one(random, &self.bad),
            _ => {
                let own = self.named.clone().unwrap_or_default();
                domains::any_spelling(random, &own)
            }
        };
        let length = match random.percent(70) {
            true => domain.len() as u16,
            false => random.pick(&FORGED),
        };
        let cleared = match random.percent(70) {
            true => 1,
            false => random.octet().wrapping_mul(random.below(2) as u8),
        };
        let list = forged(cleared, &domain, length);
        let own = list.domain.get(..usize::from(length));
        self.named = Some(own.unwrap_or(&list.domain).to_vec());
        self.history.forge(list);
    }

    /// Somebody else writes a row: one of the first, or one at the list's ends.
    fn write(&mut self) {
        let lent = self.history.rows.len();
        let at = match self.random.percent(30) {
            true => self.random.pick(&ENDS),
            false => self.random.below(lent.min(24)),
        };
        if at < lent {
            let row = self.row();
            self.history.write(at, row);
        }
    }
}
