//! The proved calls on states that no call gave: each returns, keeps to what it
//! may give, leaves memory that is not lent alone, and gives back the very state
//! where it is refused. An opening over such a state begins afresh.

mod check;
mod code;
pub mod hand;
mod lent;
pub mod made;
pub mod tally;
#[cfg(test)]
mod tests;

use crate::calls::{interface, Calls, Run};
use check::every_call;
use code::Interface;
use hand::Hand;
use made::{made, Fields, Made, Real};
use sheets::programs::calls::{random, Call};
use sheets::programs::lent::FILL;
use tally::Tally;
use waslidhaj::raw::State;

pub use code::Proved;

/// A run of so many states or checks must reach every kind of answer.
const MANY: u64 = 1_000;
/// What must come.
const WANTED: [&str; 14] = [
    "open accepted",
    "open refused",
    "add accepted",
    "add refused",
    "next ask",
    "next verdict",
    "next refused",
    "answer accepted",
    "answer refused",
    "result verdict",
    "result refused",
    "field accepted",
    "field refused",
    "finding verdict",
];

/// Compares on so many states; gives a line of what was seen, or the first fault.
/// The calls go on from a state.
pub fn compare<C: Calls>(
    interface: &impl Interface,
    calls: impl Fn(State) -> C,
    count: u64,
    seed: u64,
) -> Result<String, String> {
    let mut messages = random(seed);
    let check = |state: State, hand: &mut Hand| {
        hand.check(interface, state, every_call)?;
        let message = messages.next().unwrap_or_default();
        opened_over(calls(state), &message)
    };
    check_all(
        Tally::new("states", &WANTED),
        real(seed),
        count,
        seed,
        check,
    )
}

/// Checks as many as are wanted that no call gave, each with calls of its own.
pub fn check_all<V: Made>(
    mut tally: Tally,
    mut real: Real<V>,
    count: u64,
    seed: u64,
    mut check: impl FnMut(V, &mut Hand) -> Result<(), String>,
) -> Result<String, String> {
    for index in 0..count {
        let (kind, value) = made(seed, index, &mut real)?;
        let checked = check(value, &mut Hand::new(seed, index, &mut tally));
        checked.map_err(|what| format!("seed {seed}, index {index}, {kind:?}: {what}"))?;
        tally.made += 1;
    }
    if count >= MANY {
        tally.complete()?;
    }
    Ok(format!("{tally}, seed {seed}"))
}

/// The calls of a message from its first accepted opening on, as on a book where
/// nothing was opened before.
fn opened_over(calls: impl Calls, message: &[Call]) -> Result<(), String> {
    let mut run = Run::new(calls);
    let accepted = |call: &Call| match call {
        Call::Open(given) => given.make(&mut evaluator::book::Book::default()).is_ok(),
        _ => false,
    };
    let begin = message.iter().position(accepted).unwrap_or(message.len());
    for call in message.iter().skip(begin) {
        run.step(call)?;
    }
    Ok(())
}

/// The states of running evaluations.
fn real(seed: u64) -> Real<State> {
    let mut calls = random(seed).flatten();
    Real::new(move |state| {
        let call = calls.next().ok_or("no calls are left")?;
        let mut lent = vec![FILL; call.lent()];
        Ok(interface::make(state, &call, 2, &mut lent)?.0)
    })
}

impl Made for State {
    const ZEROS: State = State::ZEROS;
    const FLAGS: usize = 4;

    fn fields(&mut self) -> Fields<'_> {
        Fields {
            flags: vec![
                &mut self.started,
                &mut self.handed,
                &mut self.asked,
                &mut self.existence,
                &mut self.support,
                &mut self.place_kind,
                &mut self.found,
            ],
            domains: &mut self.domains,
            numbers: &mut self.numbers,
            kept: &mut self.kept,
            stored: &mut self.stored,
            words: vec![
                &mut self.identifiers,
                &mut self.count,
                &mut self.ruling_begin,
                &mut self.ruling_settings,
                &mut self.ruling_policy,
                &mut self.walk,
                &mut self.record_begin,
                &mut self.record_settings,
                &mut self.target_begin,
                &mut self.target_wider,
                &mut self.more,
            ],
        }
    }
}
