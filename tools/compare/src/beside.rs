//! The two lists beside the rows, as they are handed in: good ones, and ones of any
//! octets.

use std::fmt;

use crate::domains::{any_good, bad, one};
use evaluator::lists;
use sheets::generate::mutated;
use sheets::random::Random;
use sheets::written::{places, Record};

/// Numbers that are no kind and no outcome.
const UNLISTED: [u8; 5] = [3, 4, 127, 128, 255];
/// As many octets of a list are shown.
const SHOWN: usize = 400;

/// Both texts.
#[derive(Clone, Debug, Default, PartialEq, Eq)]
pub struct Beside {
    pub authors: Vec<u8>,
    pub sets: Vec<u8>,
}

/// An identifier to be written in a set.
#[derive(Clone, Debug, Default, PartialEq, Eq)]
pub struct Member {
    pub kind: u8,
    pub outcome: u8,
    pub selector: Vec<u8>,
    pub domain: Vec<u8>,
}

impl Beside {
    /// Adds an author domain.
    pub fn author(&mut self, domain: &[u8]) {
        let _ = Record::new(b"AU", domain).push(&mut self.authors);
    }

    /// Adds a set.
    pub fn set(&mut self, members: &[Member]) {
        let mut body = Vec::new();
        for member in members {
            let _ = Record::new(b"ID", &member.octets()).push(&mut body);
        }
        let _ = Record::new(b"ST", &body).push(&mut self.sets);
    }

    /// As the proved code gets them.
    pub fn lent(&self) -> waslidhaj::Lists<'_> {
        waslidhaj::Lists {
            authors: &self.authors,
            sets: &self.sets,
        }
    }

    /// As the second evaluator gets them.
    pub fn given(&self) -> lists::Lists<'_> {
        lists::Lists {
            authors: &self.authors,
            sets: &self.sets,
        }
    }
}

impl Member {
    /// A DKIM identifier that passes.
    pub fn dkim(selector: &[u8], domain: &[u8]) -> Member {
        Member {
            kind: 1,
            outcome: 1,
            selector: selector.to_vec(),
            domain: domain.to_vec(),
        }
    }

    /// An SPF identifier that does not pass.
    pub fn spf(domain: &[u8]) -> Member {
        Member {
            domain: domain.to_vec(),
            ..Member::default()
        }
    }

    /// The length of a selector over 255 octets is written as 255.
    fn octets(&self) -> Vec<u8> {
        let length = self.selector.len().min(255) as u8;
        let numbers = [self.kind, self.outcome, length];
        [&numbers, self.selector.as_slice(), &self.domain].concat()
    }
}

impl fmt::Display for Beside {
    fn fmt(&self, out: &mut fmt::Formatter<'_>) -> fmt::Result {
        let shown = |list: &[u8]| {
            let front = list.get(..SHOWN).unwrap_or(list);
            let octets = list.len();
            format!("{octets} octets \"{}\"", front.escape_ascii())
        };
        let (authors, sets) = (shown(&self.authors), shown(&self.sets));
        write!(out, "authors {authors}, sets {sets}")
    }
}

/// Good lists of so many author domains and sets.
pub fn good(random: &mut Random, authors: usize, sets: usize) -> Beside {
    let mut beside = Beside::default();
    for _ in 0..authors {
        beside.author(&any_good(random));
    }
    for _ in 0..sets {
        let set = good_set(random);
        beside.set(&set);
    }
    if random.percent(20) {
        mark(random, &mut beside.authors);
        for place in mark(random, &mut beside.sets) {
            let rest = beside.sets.get_mut(place + 4..);
            mark(random, rest.unwrap_or_default());
        }
    }
    beside
}

/// Gives each record a mark of any octets; where they begin.
fn mark(random: &mut Random, list: &mut [u8]) -> Vec<usize> {
    let places = places(list);
    for place in &places {
        for octet in list.iter_mut().skip(*place).take(2) {
            *octet = random.octet();
        }
    }
    places
}

/// Up to 16 identifiers, an SPF one at any place or nowhere.
fn good_set(random: &mut Random) -> Vec<Member> {
    let most = if random.percent(10) { 16 } else { 4 };
    let mut set: Vec<Member> = Vec::new();
    for _ in 0..random.between(0, most) {
        let mut member = Member::dkim(&any_good(random), &any_good(random));
        member.outcome = random.below(3) as u8;
        let spf = set.iter().any(|own| own.kind == 0);
        if !spf && random.percent(30) {
            member.kind = 0;
            member.selector = any_octets(random, 6);
        }
        set.push(member);
    }
    set
}

/// Up to so many octets.
pub fn any_octets(random: &mut Random, most: usize) -> Vec<u8> {
    let length = random.between(0, most);
    (0..length).map(|_| random.octet()).collect()
}

/// Lists with something wrong in them, or with what only looks wrong.
pub fn spoilt(random: &mut Random, mut beside: Beside) -> Beside {
    match random.below(10) {
        0..=1 => beside.author(&one(random, &bad())),
        2..=4 => {
            let set = spoilt_set(random);
            beside.set(&set);
        }
        5 => cut(random, &mut beside.authors),
        6 => cut(random, &mut beside.sets),
        7 => beside.authors = mutated(random, beside.authors),
        8 => beside.sets = mutated(random, beside.sets),
        _ => {
            beside.authors = any_octets(random, 40);
            beside.sets = any_octets(random, 40);
        }
    }
    beside
}

/// Takes octets from the end.
fn cut(random: &mut Random, list: &mut Vec<u8>) {
    let most = list.len().min(30);
    list.truncate(list.len() - random.between(0, most));
}

/// A set that cannot be taken, or that cannot be written.
fn spoilt_set(random: &mut Random) -> Vec<Member> {
    let mut set = good_set(random);
    let mut other = Member::dkim(b"s", b"example.net");
    match random.below(7) {
        0 => other.kind = random.pick(&[2, 3, 128, 255]),
        1 => other.outcome = random.pick(&UNLISTED),
        2 => set.extend([Member::spf(b"a.example"), Member::spf(b"b.example")]),
        3 => set.extend(vec![other.clone(); 16]),
        4 => other.domain = one(random, &bad()),
        5 => other.selector = one(random, &bad()),
        _ => other.selector.clear(),
    }
    let at = random.below(set.len() + 1);
    set.insert(at, other);
    set
}
