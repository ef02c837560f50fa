//! Lists of calls of address checks (Ask 11 of document 02), and what their book
//! gives for them.

mod addresses;
mod by_hand;
mod call;
mod confirming;
mod plan;
mod refused;
mod scramble;

pub use call::{Call, StartCall, Told};

use evaluator::address::book::AddressBook;
use scramble::Seeded;

/// The calls written by hand.
pub fn fixed() -> Vec<Call> {
    by_hand::calls()
}

/// The calls of random checks of a seed, one check after the other on one state;
/// before the first come calls where nothing was started.
pub fn random(seed: u64) -> impl Iterator<Item = Vec<Call>> {
    Seeded::new(seed)
}

/// Makes the calls one after the other on a book where nothing is started, and
/// gives their lines.
pub fn lines(calls: &[Call]) -> Vec<String> {
    let mut book = AddressBook::default();
    calls.iter().map(|call| call.line(&mut book)).collect()
}
