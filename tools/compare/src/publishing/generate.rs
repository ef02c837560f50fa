//! Settings to be written and policy texts to be read, from a seed.

use super::rua;
use evaluator::publishing::write_record;
use records::agreement::{Writing, ROOM};
use records::code::settings;
use records::code::RecordNumbers;
use sheets::generate::any_text;
use sheets::random::Random;

/// Numbers that are not listed anywhere.
const UNLISTED: &[u8] = &[4, 5, 6, 127, 128, 254, 255];

/// Settings and a rua text to be written, and how many octets are lent.
#[derive(Clone, Debug, PartialEq, Eq)]
pub struct Case {
    pub numbers: RecordNumbers,
    pub rua: Vec<u8>,
    pub lent: usize,
}

impl Case {
    pub fn writing(&self) -> Writing<'_> {
        Writing {
            numbers: self.numbers,
            rua: &self.rua,
            lent: self.lent,
        }
    }

    /// The octets that the record needs, if it can be written.
    pub fn needed(numbers: RecordNumbers, rua: &[u8]) -> Option<usize> {
        write_record(&settings(numbers, false), rua, &mut [0; ROOM]).ok()
    }
}

/// The settings of a seed and index.
pub fn case(seed: u64, index: u64) -> Case {
    let mut random = Random::of(seed, index);
    let numbers = numbers(&mut random);
    let rua = rua::any(&mut random);
    let needed = Case::needed(numbers, &rua).unwrap_or(20);
    let lent = match random.below(20) {
        0 => random.below(needed),
        1..=3 => needed.saturating_sub(1),
        4..=9 => needed,
        10..=12 => needed + 1,
        _ => needed + random.below(60),
    };
    Case { numbers, rua, lent }
}

/// Settings by numbers, mostly ones that can be written.
pub fn numbers(random: &mut Random) -> RecordNumbers {
    let strange = random.percent(30);
    let mut number = |most: usize, unlisted: bool| match unlisted && random.percent(15) {
        true => random.pick(UNLISTED),
        false => random.between(0, most) as u8,
    };
    RecordNumbers {
        p: number(if strange { 4 } else { 2 }, strange),
        sp: number(if strange { 4 } else { 3 }, strange),
        np: number(if strange { 4 } else { 3 }, strange),
        adkim: number(2, true),
        aspf: number(2, true),
        psd: number(3, true),
        t: number(2, true),
    }
}

/// The policy text of a seed and index.
pub fn text(seed: u64, index: u64) -> Vec<u8> {
    let mut random = Random::of(seed ^ 0x7265_6164, index);
    let mut text = any_text(&mut random);
    if random.percent(25) {
        text.extend(random.pick(&["; rua=", ";RUA = ", ";rua=\t"]).bytes());
        text.extend(rua::any(&mut random));
        text.extend(random.pick(&["", " ", ";", "\t; x=1"]).bytes());
    }
    text
}
