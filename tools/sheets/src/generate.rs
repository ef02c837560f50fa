//! Seeded sheets: ordinary ones that mostly reach a verdict, and hostile ones.

pub(crate) mod domains;
mod draft;
mod fill;
mod hostile;
mod message;
mod repeats;
pub(crate) mod texts;

use crate::random::Random;

pub use texts::any_text;

/// The two kinds of sheets.
#[derive(Clone, Copy, Debug, PartialEq, Eq)]
pub enum SheetKind {
    Ordinary,
    Hostile,
}

impl SheetKind {
    pub fn read(word: &str) -> Option<SheetKind> {
        match word {
            "ordinary" => Some(SheetKind::Ordinary),
            "hostile" => Some(SheetKind::Hostile),
            _ => None,
        }
    }

    pub fn sheet(self, seed: u64, index: u64) -> Vec<u8> {
        match self {
            SheetKind::Ordinary => ordinary(seed, index),
            SheetKind::Hostile => hostile(seed, index),
        }
    }
}

/// A valid message with its answers.
pub fn ordinary(seed: u64, index: u64) -> Vec<u8> {
    let mut random = Random::of(seed, index);
    message::draft(&mut random).octets()
}

/// A sheet with a fault, or several, or one that only looks like a fault.
pub fn hostile(seed: u64, index: u64) -> Vec<u8> {
    let mut random = Random::of(seed ^ 0x686f_7374_696c_6521, index);
    let draft = message::draft(&mut random);
    hostile::spoil(&mut random, draft)
}

/// Octets with a few of them flipped, put in, taken out, or a slice twice.
pub fn mutated(random: &mut Random, mut octets: Vec<u8>) -> Vec<u8> {
    hostile::mutated(random, &mut octets);
    octets
}

/// A sheet with answers that are never asked, up to so many octets; the last few
/// octets may be left over.
pub fn filled(mut sheet: Vec<u8>, octets: usize) -> Vec<u8> {
    fill::fill(&mut sheet, octets, &mut 0);
    sheet
}
