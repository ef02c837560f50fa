//! Ask 12 of document 02: reading the Identity-Alignment field.

mod expected;
mod front;
mod grammar;

pub use expected::{expected, Expected};

use crate::message::Kind;
use crate::refusal::Refusal;
use front::Front;

/// "comments nested at most 8 deep"
pub const MOST_OPEN: usize = 8;

/// The methods that a field names; neither of them for `none`.
#[derive(Clone, Copy, Debug, Default, PartialEq, Eq)]
pub struct Methods {
    pub dkim: bool,
    pub spf: bool,
}

/// Reads a field, as far as its first fault.
///
/// "the earliest is given": a 24 or 25 is at the octet with which it shows. A 26
/// is at the first letter of a word and shows with its last, and no letter of a
/// word that the grammar has is a 24 or 25.
pub fn read_field(text: &[u8]) -> Result<Methods, Refusal> {
    let mut front = Front::empty();
    for (place, octet) in text.iter().enumerate() {
        front = front.and(*octet);
        if !front.viable() {
            return Err(Refusal::new(24, place));
        }
        if front.open() > MOST_OPEN {
            return Err(Refusal::new(25, place));
        }
        if let Some(begin) = repeated(front.methods()) {
            return Err(Refusal::new(26, begin));
        }
    }
    match front.whole() {
        true => Ok(named(front.methods())),
        false => Err(Refusal::new(24, text.len())),
    }
}

/// Whether the grammar can have these octets as the front part of a field,
/// "repeats and depth aside".
pub fn viable(front: &[u8]) -> bool {
    Front::of(front).viable()
}

fn named(methods: &[(Kind, usize)]) -> Methods {
    let is_named = |kind| methods.iter().any(|(own, _)| *own == kind);
    Methods {
        dkim: is_named(Kind::Dkim),
        spf: is_named(Kind::Spf),
    }
}

/// Where the last method begins, if it was named before.
fn repeated(methods: &[(Kind, usize)]) -> Option<usize> {
    let ((kind, begin), before) = methods.split_last()?;
    let again = before.iter().any(|(own, _)| own == kind);
    again.then_some(*begin)
}
