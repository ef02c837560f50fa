//! Values of a report changed: numbers at their widths, addresses, domains, texts, ids and
//! words.

use std::ops::Range;

use super::put;
use crate::domains::{bad, good, one};
use crate::received::edges::{ADDRESSES, COUNTS, IDS, TEXTS, TIMES, WORDS};
use sheets::random::Random;

/// An element with a value in it.
struct Leaf<'t> {
    name: &'t [u8],
    content: Range<usize>,
}

/// The elements that have a value, in a report as it is written.
fn leaves(text: &[u8]) -> Vec<Leaf<'_>> {
    let (mut leaves, mut place) = (Vec::new(), 0);
    for piece in text.split(|octet| *octet == b'<') {
        let end = place + piece.len();
        if let Some(at) = piece.iter().position(|octet| *octet == b'>') {
            if at + 1 < piece.len() {
                leaves.push(Leaf {
                    name: &piece[..at],
                    content: place + at + 1..end,
                });
            }
        }
        place = end + 1;
    }
    leaves
}

/// One of the elements that have a value, each name as often as others.
pub fn any_leaf(random: &mut Random, text: &[u8]) -> Option<(Vec<u8>, Range<usize>)> {
    let leaves = leaves(text);
    let mut names: Vec<&[u8]> = leaves.iter().map(|leaf| leaf.name).collect();
    names.sort_unstable();
    names.dedup();
    let name = random.pick(&names);
    let own: Vec<Leaf> = leaves
        .into_iter()
        .filter(|leaf| leaf.name == name)
        .collect();
    let leaf = own.get(random.below(own.len()))?;
    Some((name.to_vec(), leaf.content.clone()))
}

/// Gives one or two elements another value.
pub fn change(random: &mut Random, text: &mut Vec<u8>) {
    for _ in 0..random.pick(&[1, 1, 1, 2]) {
        let Some((name, content)) = any_leaf(random, text) else {
            return;
        };
        let value = value(random, &name);
        put(text, content, &value);
    }
}

fn value(random: &mut Random, name: &[u8]) -> Vec<u8> {
    let listed = |random: &mut Random, list: &[&str]| random.pick(list).as_bytes().to_vec();
    match name {
        b"begin" | b"end" => listed(random, TIMES),
        b"count" => listed(random, COUNTS),
        b"source_ip" => listed(random, ADDRESSES),
        b"domain" | b"header_from" | b"selector" => domain(random),
        b"org_name" | b"email" | b"extra_contact_info" => text_value(random),
        b"report_id" => id(random),
        _ => listed(random, WORDS),
    }
}

/// A domain at the limits of its labels and its length, or one that breaks the rule.
fn domain(random: &mut Random) -> Vec<u8> {
    let label = |length: usize| "x".repeat(length);
    let three = [label(63), label(63), label(63)].join(".");
    match random.below(8) {
        0 => one(random, &bad()).to_ascii_lowercase(),
        1 => one(random, &bad()),
        2 => one(random, &good()),
        3 => one(random, &good()).to_ascii_lowercase(),
        4 => label(random.between(62, 65)).into_bytes(),
        5 => format!("{three}.{}", label(random.between(58, 63))).into_bytes(),
        6 => format!("{}.{three}", label(random.between(58, 63))).into_bytes(),
        _ => format!("{three}.{}.", label(random.between(57, 62))).into_bytes(),
    }
}

/// A text about the limit, with entities or without, or a short one.
fn text_value(random: &mut Random) -> Vec<u8> {
    let length = random.between(4095, 4098);
    match random.below(6) {
        0 => vec![b'a'; length],
        1 => b"&amp;".repeat(length),
        2 => [b"&lt;".repeat(length - 1), b"b".to_vec()].concat(),
        3 => Vec::new(),
        _ => random.pick(TEXTS).as_bytes().to_vec(),
    }
}

fn id(random: &mut Random) -> Vec<u8> {
    match random.below(3) {
        0 => vec![b'Z'; random.between(62, 66)],
        1 => random.pick(IDS).into(),
        _ => vec![b'a', random.octet(), b'Z'],
    }
}
