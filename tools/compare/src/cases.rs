//! The sheets that are compared.

use sheets::generate::{filled, ordinary, SheetKind};
use sheets::programs::messages;
use sheets::walk_sheets::{self, WalkSheet};

/// A sheet, and where it comes from.
pub struct Case {
    pub origin: String,
    pub sheet: Vec<u8>,
}

/// Generated sheets of a kind and seed, from index 0.
pub fn generated(kind: SheetKind, seed: u64, count: u64) -> impl Iterator<Item = Case> {
    (0..count).map(move |index| Case {
        origin: format!("{kind:?}, seed {seed}, index {index}"),
        sheet: kind.sheet(seed, index),
    })
}

/// The marked sheets, those of RFC 9989's appendix B, the broken and odd ones.
pub fn written() -> Result<Vec<Case>, String> {
    let case = |message: messages::Message| Case {
        origin: message.name,
        sheet: message.sheet,
    };
    Ok(messages::messages()?.into_iter().map(case).collect())
}

/// Walks from domains of few and of many labels.
pub fn walks() -> Result<Vec<Case>, String> {
    let case = |own: WalkSheet| Case {
        origin: own.name,
        sheet: own.sheet,
    };
    Ok(walk_sheets::sheets()?.into_iter().map(case).collect())
}

/// Sheets of 65,536 octets and more.
pub fn long(seed: u64) -> impl Iterator<Item = Case> {
    [65_536, 65_537, 70_000]
        .into_iter()
        .map(move |octets| Case {
            origin: format!("Ordinary, seed {seed}, index 0, filled to {octets} octets"),
            sheet: filled(ordinary(seed, 0), octets),
        })
}
