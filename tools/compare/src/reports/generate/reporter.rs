//! What the reporter says, from a seed.

use crate::reports::day::Reporter;
use sheets::random::Random;

/// Octets of texts, those with an entity often.
const OCTETS: &[u8] = b"&<>&<>\"';#!~ abcXYZ019@.";
const ALPHANUMERIC: &[u8] = b"abcxyzABCXYZ0129";
/// Lengths of texts about the limit.
const LONG: [usize; 3] = [4094, 4095, 4096];
/// Octets about the ends of what may stand in a text.
const OUTSIDE: [u8; 8] = [0, 9, 10, 13, 31, 127, 128, 255];

pub fn any(random: &mut Random) -> Reporter {
    let (begin, end) = times(random);
    Reporter {
        organization: text(random),
        email: text(random),
        contact: match random.percent(50) {
            true => Vec::new(),
            false => text(random),
        },
        id: id(random),
        begin,
        end,
    }
}

fn of(random: &mut Random, octets: &[u8], length: usize) -> Vec<u8> {
    (0..length).map(|_| random.pick(octets)).collect()
}

/// A good text, now and then one as long as can be.
fn text(random: &mut Random) -> Vec<u8> {
    let length = match random.percent(4) {
        true => random.pick(&LONG),
        false => random.between(1, 30),
    };
    match random.below(10) {
        0 => b"&amp;&lt;&gt;"
            .iter()
            .copied()
            .cycle()
            .take(length)
            .collect(),
        1 => (0..length).map(|_| random.between(32, 126) as u8).collect(),
        _ => of(random, OCTETS, length),
    }
}

fn id(random: &mut Random) -> Vec<u8> {
    let length = match random.percent(15) {
        true => random.between(63, 64),
        false => random.between(1, 12),
    };
    of(random, ALPHANUMERIC, length)
}

/// Begin and end, the first not after the second.
fn times(random: &mut Random) -> (u64, u64) {
    let mut time = || match random.below(4) {
        0 => random.number(),
        1 => random.below(20) as u64,
        2 => u64::MAX - random.below(2) as u64,
        _ => 1_700_000_000 + random.below(200_000) as u64,
    };
    let (one, other) = (time(), time());
    match random.percent(15) {
        true => (one, one),
        false => (one.min(other), one.max(other)),
    }
}

/// Something that refusal 19 is given for.
pub fn spoil_text(random: &mut Random, reporter: &mut Reporter) {
    let long = of(random, b"a&", 4097);
    let mut foreign = text(random);
    let at = random.below(foreign.len());
    foreign.insert(at, random.pick(&OUTSIDE));
    let text = match random.below(3) {
        0 => long,
        1 => foreign,
        _ => Vec::new(),
    };
    // An empty contact is none.
    match random.below(5) {
        0..=1 => reporter.organization = text,
        2..=3 => reporter.email = text,
        _ => reporter.contact = text,
    }
}

/// An id or times that refusal 11 is given for.
pub fn spoil(random: &mut Random, reporter: &mut Reporter) {
    match random.below(5) {
        0 => reporter.id = Vec::new(),
        1 => reporter.id = of(random, ALPHANUMERIC, 65),
        2 => {
            let at = random.below(reporter.id.len());
            let octet = random.pick(b"-_.@/:[`{ \0\x80\xff");
            reporter.id.insert(at, octet);
        }
        // Equal times are as good as before.
        _ => (reporter.begin, reporter.end) = (reporter.end, reporter.begin),
    }
}
