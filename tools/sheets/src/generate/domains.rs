//! Seeded domains, good and bad.

use crate::random::Random;
use evaluator::domain::{Domain, MOST_LABEL_OCTETS, MOST_OCTETS};

const WORDS: &[&str] = &[
    "com", "example", "org", "shop", "mail", "news", "bank", "co", "uk", "a", "b", "x-1", "_s",
    "9", "-", "mega",
];
const LABEL_OCTETS: &[u8] = b"abcdefghijklmnopqrstuvwxyz0123456789-_";

/// Labels joined by dots.
fn joined(labels: &[Vec<u8>]) -> Vec<u8> {
    labels.join(&b'.')
}

fn label(random: &mut Random, length: usize) -> Vec<u8> {
    (0..length).map(|_| random.pick(LABEL_OCTETS)).collect()
}

fn words(random: &mut Random, count: usize) -> Vec<u8> {
    let word = |random: &mut Random| random.pick(WORDS).as_bytes().to_vec();
    let labels: Vec<Vec<u8>> = (0..count).map(|_| word(random)).collect();
    joined(&labels)
}

/// A domain of so many labels and octets, if these can be had together.
pub fn of_length(random: &mut Random, labels: usize, octets: usize) -> Vec<u8> {
    let least = (octets + 1).div_ceil(MOST_LABEL_OCTETS + 1);
    let count = labels.clamp(least.max(1), octets.div_ceil(2).max(1));
    let mut lengths = vec![1; count];
    let mut left = (octets + 1).saturating_sub(2 * count);
    while left > 0 {
        let at = random.below(count);
        let step = random.between(1, 25).min(left);
        if let Some(length) = lengths.get_mut(at) {
            let step = step.min(MOST_LABEL_OCTETS - *length);
            *length += step;
            left -= step;
        }
    }
    let labels: Vec<Vec<u8>> = lengths
        .iter()
        .map(|length| label(random, *length))
        .collect();
    joined(&labels)
}

/// The letters of a name in random case, in so many cases of a hundred.
pub fn recased(random: &mut Random, name: Vec<u8>, rate: usize) -> Vec<u8> {
    if !random.percent(rate) {
        return name;
    }
    let flip = |octet: u8| match random.percent(50) {
        true => octet.to_ascii_uppercase(),
        false => octet,
    };
    name.into_iter().map(flip).collect()
}

/// A domain or name with a final dot, in so many cases of a hundred.
pub fn dotted(random: &mut Random, mut name: Vec<u8>, rate: usize) -> Vec<u8> {
    if random.percent(rate) {
        name.push(b'.');
    }
    name
}

/// A good domain of any shape, without a final dot.
pub fn author(random: &mut Random) -> Vec<u8> {
    let domain = match random.below(40) {
        0..=19 => {
            let count = random.between(1, 5);
            words(random, count)
        }
        20..=30 => {
            let count = random.between(1, 12);
            words(random, count)
        }
        31..=34 => {
            let (count, octets) = (random.between(4, 14), random.between(236, 253));
            of_length(random, count, octets)
        }
        35 | 36 => {
            let octets = random.pick(&[245, 246, 247, 252, 253]);
            let count = random.between(4, 40);
            of_length(random, count, octets)
        }
        37 => {
            let octets = random.pick(&[1, 2, 62, 63]);
            label(random, octets)
        }
        _ => {
            let count = random.between(13, 126);
            of_length(random, count, 2 * count)
        }
    };
    recased(random, domain, 15)
}

/// A domain of at least so many labels that shares no name with another number.
pub fn deep(random: &mut Random, least: usize, number: usize) -> Vec<u8> {
    let count = random.between(least.saturating_sub(1), 10);
    let mut domain = words(random, count);
    domain.extend(format!(".top{number}").bytes());
    domain
}

/// The last labels of a domain, as many as asked for or fewer.
fn tail(domain: &[u8], count: usize) -> Vec<u8> {
    let good = Domain::read(domain);
    good.map_or(Vec::new(), |good| good.last_labels(count).octets().to_vec())
}

fn label_count(domain: &[u8]) -> usize {
    domain.split(|octet| *octet == b'.').count()
}

/// A good domain that may be related to the author's or to an earlier one.
pub fn identifier(random: &mut Random, author_domain: &[u8], earlier: &[Vec<u8>]) -> Vec<u8> {
    let labels = label_count(author_domain);
    let domain = match random.below(20) {
        0..=3 => author_domain.to_vec(),
        4..=7 => below(random, author_domain),
        8..=10 => {
            let kept = random.between(1, labels);
            tail(author_domain, kept)
        }
        11..=14 => {
            let kept = random.between(1, labels);
            let suffix = tail(author_domain, kept);
            below(random, &suffix)
        }
        15 | 16 if !earlier.is_empty() => {
            let at = random.below(earlier.len());
            earlier.get(at).cloned().unwrap_or_default()
        }
        _ => author(random),
    };
    recased(random, domain, 15)
}

/// A domain with one to four labels before it, if these fit.
fn below(random: &mut Random, domain: &[u8]) -> Vec<u8> {
    let count = random.pick(&[1, 1, 1, 2, 3, 4, 8]);
    let mut longer = words(random, count);
    longer.push(b'.');
    longer.extend(domain);
    match longer.len() <= MOST_OCTETS {
        true => longer,
        false => domain.to_vec(),
    }
}

/// Domains that break the rule in each way, at times with a final dot.
pub fn bad(random: &mut Random) -> Vec<u8> {
    let bad = bad_without_dot(random);
    dotted(random, bad, 15)
}

/// Domains that break the rule with a final dot or without.
fn bad_without_dot(random: &mut Random) -> Vec<u8> {
    let good = author(random);
    match random.below(12) {
        0 => Vec::new(),
        1 => b".".to_vec(),
        2 => [b".".as_slice(), &good].concat(),
        3 => [good.as_slice(), b".."].concat(),
        4 => [good.as_slice(), b"..", &words(random, 1)].concat(),
        5 | 6 => with_foreign_octet(random, good),
        7 => {
            let (count, most) = (random.between(0, 3), random.pick(&[64, 65, 70]));
            let octets = random.between(64, most);
            long_label(random, count, octets)
        }
        8 => {
            let (count, most) = (random.between(5, 20), random.pick(&[254, 255, 300]));
            let octets = random.between(254, most);
            of_length(random, count, octets)
        }
        9 => {
            let octets = random.between(254, 320);
            let long = of_length(random, 8, octets);
            with_foreign_octet(random, long)
        }
        10 => [of_length(random, 6, 260).as_slice(), b".a b.c"].concat(),
        _ => label(random, 254),
    }
}

pub fn with_foreign_octet(random: &mut Random, mut domain: Vec<u8>) -> Vec<u8> {
    let foreign = random.pick(b" \0@:/*\x7f\x80\xff\xc3!\n");
    let at = random.below(domain.len() + 1);
    domain.insert(at, foreign);
    domain
}

fn long_label(random: &mut Random, before: usize, octets: usize) -> Vec<u8> {
    let mut labels: Vec<Vec<u8>> = (0..before).map(|_| b"ok".to_vec()).collect();
    labels.push(label(random, octets));
    labels.push(b"com".to_vec());
    joined(&labels)
}
