//! Scrambled lists of calls on one evaluation, and what the book gives for them.

mod accepted;
mod adding;
mod call;
mod long;
mod refused;
pub(super) mod scramble;
mod told;

pub use call::{AddCall, AnswerCall, Call, OpenCall};
pub use told::Told;

use evaluator::book::Book;
use scramble::Seeded;

/// The fixed list of calls: where nothing was opened, those written by hand that
/// add identifiers, and messages with refused calls in between. The error is of a
/// message that cannot be written.
pub fn fixed() -> Result<Vec<Call>, String> {
    let plans = accepted::messages().ok_or("a message cannot be written")?;
    Ok(scramble::scrambled(&plans))
}

/// The calls of random messages of a seed, one message after the other on one
/// evaluation; before the first come calls where nothing was opened. It ends where
/// a message cannot be written.
pub fn random(seed: u64) -> impl Iterator<Item = Vec<Call>> {
    Seeded::new(seed)
}

/// Makes the calls one after the other on a book where nothing is opened, and
/// gives their lines.
pub fn lines(calls: &[Call]) -> Vec<String> {
    let mut book = Book::default();
    calls.iter().map(|call| call.line(&mut book)).collect()
}
