//! Numbers and lists beside the rows, good and bad.

use super::{beside, cleared, of, row, rows, Named, DOMAIN, MOST};
use crate::beside::{Beside, Member};
use crate::histories::history::History;
use evaluator::rows::{Entry, Seen};

pub fn histories() -> Vec<Named> {
    vec![
        ("numbers past the lists", past()),
        ("28 before 12 and 13, after 14 and 27", order()),
        ("sets of every quality", sets()),
        ("lists cut at every place", entered(cut_lists())),
        ("lists of any octets", entered(odd_lists())),
    ]
}

/// A fail of example.com with these numbers.
fn entry(author: u32, set: u32) -> Entry {
    let seen = Seen {
        author,
        set,
        ..Seen::default()
    };
    of(seen, DOMAIN)
}

/// Every pair of numbers about the lists' ends.
fn past() -> History {
    let mut history = cleared(&[0; 12]);
    let numbers = [0, 1, 2, 3, 4, 255, 256, 257, 65_536, 1 << 31, MOST];
    for author in numbers {
        for set in numbers {
            history.enter(entry(author, set));
        }
    }
    // A row has such numbers already.
    for (at, (author, set)) in [(3, 0), (0, 3), (MOST, MOST)].into_iter().enumerate() {
        let mut own = row(0, 1);
        (own.seen.author, own.seen.set) = (author, set);
        history.write(at, own);
        history.enter(entry(author, set));
    }
    // A row has the numbers but for their high octets.
    for (at, high) in (3..).zip([1 << 8, 1 << 16, 1 << 31]) {
        let mut own = row(9, 1);
        own.seen.author = high;
        history.write(at, own);
        own.seen = row(9, 1).seen;
        own.seen.set = high;
        history.write(at + 3, own);
    }
    history.enter(of(row(9, 1).seen, DOMAIN));
    // No lists at all.
    history.enter_beside(entry(0, 0), 9);
    history
}

/// Bad numbers where there is no room, where the match is full, for another domain and
/// with another result.
fn order() -> History {
    let mut history = rows(&[1, 1]);
    let bad = entry(7, 7);
    history.enter(bad.clone());
    history.clear(DOMAIN);
    for count in [MOST, 1] {
        for at in 0..2 {
            let mut own = row(0, count);
            (own.seen.author, own.seen.set) = (7, 7);
            history.write(at, own);
        }
        history.enter(bad.clone());
        history.enter(entry(7, 8));
        let mut other = bad.clone();
        other.finding.domain = b"example.org".to_vec();
        history.enter(other.clone());
        other.finding.result = 3;
        history.enter(other);
        history.enter(entry(0, 0));
    }
    history
}

/// Each set alone in a list.
fn sets() -> History {
    let dkim = || Member::dkim(b"s", b"d");
    let spf = || Member::spf(b"d");
    let number = |kind, outcome| Member {
        kind,
        outcome,
        ..dkim()
    };
    let mut sets = vec![
        vec![],
        vec![spf()],
        vec![spf(), spf()],
        vec![spf(), dkim(), dkim(), spf()],
        vec![dkim(); 15],
        vec![dkim(); 16],
        vec![dkim(); 17],
        [vec![dkim(); 15], vec![spf()]].concat(),
        [vec![dkim(); 16], vec![spf()]].concat(),
        [vec![dkim(); 16], vec![number(9, 9)]].concat(),
        vec![Member::dkim(b"", b""), Member::spf(b"..")],
        vec![Member::dkim(&[b's'; 255], b"d")],
    ];
    for numbers in [0, 1, 2, 3, 128, 255] {
        sets.push(vec![number(numbers, 0)]);
        sets.push(vec![number(numbers, 1), dkim()]);
        sets.push(vec![dkim(), number(1, numbers)]);
        sets.push(vec![number(0, numbers)]);
    }
    let mut history = cleared(&[0; 4]);
    for set in sets {
        let mut own = Beside::default();
        own.author(b"");
        own.set(&set);
        history.beside.push(own);
        history.enter_beside(entry(0, 0), history.beside.len() - 1);
        history.enter_beside(entry(0, 1), history.beside.len() - 1);
    }
    history
}

/// Enters with each of these lists.
fn entered(lists: Vec<Beside>) -> History {
    let mut history = cleared(&[0; 12]);
    for own in lists {
        enter_all(&mut history, own);
    }
    history
}

/// Enters with each place of these lists.
fn enter_all(history: &mut History, own: Beside) {
    history.beside.push(own);
    let at = history.beside.len() - 1;
    for place in 0..4 {
        history.enter_beside(entry(place, 0), at);
        history.enter_beside(entry(0, place), at);
    }
}

/// Lists with fewer and fewer octets.
pub fn cut_lists() -> Vec<Beside> {
    let Beside { authors, sets } = beside();
    let cut_authors = (0..authors.len()).map(|octets| Beside {
        authors: authors.get(..octets).unwrap_or_default().to_vec(),
        sets: sets.clone(),
    });
    let cut_sets = (0..sets.len()).map(|octets| Beside {
        authors: authors.clone(),
        sets: sets.get(..octets).unwrap_or_default().to_vec(),
    });
    cut_authors.chain(cut_sets).collect()
}

/// Marks of any octets, lengths with a high octet, and bodies that lack octets.
pub fn odd_lists() -> Vec<Beside> {
    let long = [b"AU\x01\x02".as_slice(), &[b'x'; 258], b"AU\0\0"].concat();
    let authors: [&[u8]; 5] = [
        b"\0\xff\0\x01aTX\0\x02bc",
        &long,
        b"AU\0\x09AU\0\x01b",
        b"AU\xff\xff",
        b"AU\0\0AU\0\0AU\0\0AU\0",
    ];
    let authors = authors.map(|own| Beside {
        authors: own.to_vec(),
        sets: beside().sets,
    });
    let sets = ODD_SETS.iter().map(|own| Beside {
        authors: beside().authors,
        sets: own.to_vec(),
    });
    authors.into_iter().chain(sets).collect()
}

const ODD_SETS: &[&[u8]] = &[
    b"\xff\0\0\x08??\0\x04\x01\x01\0d",
    b"ST\0\x04ID\0\0",
    b"ST\0\x05ID\0\x01\x01",
    b"ST\0\x05ID\0\x01\0",
    b"ST\0\x06ID\0\x02\x01\x02",
    b"ST\0\x06ID\0\x03\x01\x02\x01sd",
    b"ST\0\x03ID\0ST\0\0",
    b"ST\0\x04ID\0\x03\x01\x01\0ST\0\0",
    b"ST\0\x07ID\0\x03\x01\x01\0",
    b"ST\0\x08ID\0\x04\x01\x01\xffs",
    b"ST\0\x08ID\0\x04\x01\x01\x01s",
    b"ST\0\x09ID\0\x05\x01\x01\x01sd",
    b"ST\0\x09ID\0\x05\0\x02\x02sd",
    b"ST\0\x0aID\0\x06\0\x02\x02.\xffd",
];
