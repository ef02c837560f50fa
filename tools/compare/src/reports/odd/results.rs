//! Author domains, and the identifiers of sets.

use super::{each, put, put_author, put_set, row, Named};
use crate::beside::{Beside, Member};
use crate::domains::spelled;
use crate::histories::odd::lists::{cut_lists, odd_lists};

pub fn days() -> Vec<Named> {
    let mut days = each("sets", sets(), |day, set| put_set(day, &set));
    days.extend(each("author domains", domains(), |day, domain| {
        put_author(day, &domain);
    }));
    days.extend(each("selectors and domains", domains(), |day, own| {
        put_set(day, &[Member::dkim(&own, b"d"), Member::dkim(b"s", b"e")]);
    }));
    days.extend(each("domains of DKIM", domains(), |day, own| {
        put_set(day, &[Member::dkim(b"s", b"e"), Member::dkim(b"s", &own)]);
    }));
    days.extend(each("domains of SPF", domains(), |day, own| {
        put_set(day, &[Member::spf(&own)]);
    }));
    days.extend(each("selectors of SPF", domains(), |day, own| {
        let selector = own;
        put_set(
            day,
            &[Member {
                selector,
                ..Member::spf(b"d")
            }],
        );
    }));
    days.extend(places());
    days.extend(behind());
    days.extend(far());
    let lists = cut_lists().into_iter().chain(odd_lists());
    days.extend(each("lists of any octets", lists, |day, own| {
        day.history.beside = vec![own];
    }));
    days
}

/// A second row, without a count or with a bad author domain or place.
fn behind() -> Vec<Named> {
    let rows = [(0, 9), (0, 1), (3, 0), (3, 1), (3, 9)];
    each("a row behind another", rows, |day, (count, author)| {
        for beside in &mut day.history.beside {
            beside.author(b"a b");
        }
        let mut behind = row(count);
        behind.seen.author = author;
        put(day, &[row(1), behind]);
    })
}

/// Places that need more than 8 and than 16 bits, in long lists.
fn far() -> Vec<Named> {
    let numbers = [
        (255, 256),
        (256, 255),
        (65_535, 65_536),
        (65_537, 0),
        (65_599, 65_599),
        (65_600, 0),
        (0, 65_600),
    ];
    each("far places", numbers, |day, (author, set)| {
        let mut beside = Beside::default();
        for number in 0..65_600_u32 {
            beside.author(number.to_string().as_bytes());
            let members = [Member::spf(number.to_string().as_bytes())];
            beside.set(members.get(..number as usize % 2).unwrap_or_default());
        }
        day.history.beside = vec![beside];
        let mut own = row(1);
        (own.seen.author, own.seen.set) = (author, set);
        put(day, &[own, row(2)]);
    })
}

/// Domains of every kind, and one of every octet.
fn domains() -> Vec<Vec<u8>> {
    let mut domains = spelled();
    domains.extend((0..=255).map(|octet| vec![b'a', octet, b'z']));
    domains
}

fn dkim(number: u8) -> Member {
    Member {
        outcome: number % 3,
        ..Member::dkim(&[b'z' - number], &[b'a' + number])
    }
}

fn many(count: u8) -> Vec<Member> {
    (0..count).map(dkim).collect()
}

fn spf(outcome: u8) -> Member {
    Member {
        outcome,
        ..Member::spf(b"Spf.Example")
    }
}

fn sets() -> Vec<Vec<Member>> {
    let mut sets = vec![
        vec![],
        vec![spf(0)],
        vec![spf(1)],
        vec![spf(2)],
        vec![spf(0), spf(1)],
        vec![dkim(0); 3],
        many(15),
        many(16),
        many(17),
        [many(16), vec![spf(0)]].concat(),
        [many(15), vec![spf(2)]].concat(),
    ];
    // SPF at each place among others.
    for at in 0..5 {
        let mut set = many(4);
        set.insert(at, spf(1));
        sets.push(set);
    }
    for number in [2, 3, 128, 255] {
        let (mut kind, mut outcome) = (dkim(0), dkim(1));
        (kind.kind, outcome.outcome) = (number, number);
        sets.extend([vec![kind], vec![dkim(0), outcome]]);
    }
    sets
}

/// Rows that stand for others of several places, in any order, and for places that
/// nothing stands for.
fn places() -> Vec<Named> {
    let numbers: [&[(u32, u32)]; 8] = [
        &[(0, 0), (1, 1), (2, 2)],
        &[(2, 0), (1, 0), (0, 0), (1, 2)],
        &[(2, 2)],
        &[(0, 3)],
        &[(3, 0)],
        &[(0, 0), (1, 4)],
        &[(u32::MAX, 0)],
        &[(0, 1 << 16)],
    ];
    each("places", numbers, |day, numbers| {
        for beside in &mut day.history.beside {
            beside.author(b"news.example.com");
            beside.author(b"EXAMPLE.com.");
            beside.set(&[]);
            beside.set(&[Member::dkim(b"s2", b"d")]);
            // What no row stands for is not judged.
            beside.set(&[Member {
                kind: 9,
                ..Member::dkim(b"", b"")
            }]);
        }
        let rows: Vec<_> = numbers
            .iter()
            .map(|(author, set)| {
                let mut own = row(7);
                (own.seen.author, own.seen.set) = (*author, *set);
                own
            })
            .collect();
        put(day, &rows);
    })
}
