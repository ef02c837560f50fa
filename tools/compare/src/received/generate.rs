//! Texts from a seed: reports that Ask 9 writes, the same with something changed, other
//! senders' forms, and any octets.

mod elements;
mod senders;
mod values;

use super::odd::PLAIN;
use super::written::Written;
use crate::beside::any_octets;
use crate::reports::day;
use sheets::random::Random;

/// Octets that stand in reports, and ones that do not.
const OCTETS: &[u8] = b"<>&;/.:\"'0123456789abfpxzAZ-_=?! \t\r\n\0\x1f\x7f\x80\xff";
/// So many days are tried for one whose report can be written.
const TRIES: usize = 30;

/// The text of a seed and index; with it the report and its rows, where it is one as it
/// was written.
pub fn text(seed: u64, index: u64) -> Result<(Vec<u8>, Option<Written>), String> {
    let mut random = Random::of(seed ^ 0x7265_6164, index);
    let random = &mut random;
    let written = written(random, seed)?;
    let kind = random.below(100);
    if kind < 20 {
        return Ok((written.text.clone(), Some(written)));
    }
    let mut text = written.text;
    match kind {
        20..=44 => hurt(random, &mut text),
        45..=74 => values::change(random, &mut text),
        75..=86 => elements::change(random, &mut text),
        87..=93 => senders::change(random, &mut text),
        94..=96 => {
            let most = random.pick(&[0, 2, 60]);
            text = any_octets(random, most);
        }
        _ => {
            values::change(random, &mut text);
            hurt(random, &mut text);
        }
    }
    Ok((text, None))
}

/// The report of some day, or else the plain one.
fn written(random: &mut Random, seed: u64) -> Result<Written, String> {
    for _ in 0..TRIES {
        let day = day(seed, random.number());
        if let Some(written) = Written::of(&day)? {
            return Ok(written);
        }
    }
    Ok(Written {
        text: PLAIN.into(),
        rows: Vec::new(),
    })
}

/// One octet changed, put in, left out, doubled or swapped, or the text cut.
fn hurt(random: &mut Random, text: &mut Vec<u8>) {
    let place = place(random, text);
    let octet = match random.percent(60) {
        true => random.pick(OCTETS),
        false => random.octet(),
    };
    match random.below(12) {
        0..=3 => put(text, place..place + 1, &[octet]),
        4..=5 => put(text, place..place, &[octet]),
        6..=7 => put(text, place..place + 1, b""),
        8 => {
            let own: Vec<u8> = text.get(place).copied().into_iter().collect();
            put(text, place..place, &own);
        }
        9 if place + 1 < text.len() => text.swap(place, place + 1),
        10 => text.push(octet),
        _ => text.truncate(place),
    }
}

/// Any place, or mostly one where a value stands or ends.
fn place(random: &mut Random, text: &[u8]) -> usize {
    match values::any_leaf(random, text) {
        Some((_, content)) if random.percent(60) => random.between(content.start, content.end),
        _ => random.below(text.len() + 1),
    }
}

/// Puts octets in the stead of others.
fn put(text: &mut Vec<u8>, range: std::ops::Range<usize>, by: &[u8]) {
    let end = range.end.min(text.len());
    text.splice(range.start.min(end)..end, by.iter().copied());
}
