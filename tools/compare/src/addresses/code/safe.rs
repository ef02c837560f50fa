//! The calls by the safe interface.

use crate::calls::safe::{answer, refusal};
use records::address::code::verdict;
use sheets::programs::checks::{Call, Told};
use waslidhaj::{AddressCheck, AddressOutcome, AddressStep, Refusal};

/// Makes a call.
pub fn make(check: &mut AddressCheck, call: &Call, lent: &mut [u8]) -> Told {
    let accepted = |()| Told::Accepted;
    match call {
        Call::Start(given) => of(check.start_over(&given.policy, &given.entry), accepted),
        Call::Next => of(check.next(), step),
        Call::Answer(given) => of(check.answer(&given.name, answer(given), lent), accepted),
        Call::Result => of(check.result(), told),
    }
}

fn of<T>(given: Result<T, Refusal>, told: impl FnOnce(T) -> Told) -> Told {
    Told::of(given.map_err(refusal), told)
}

fn step(step: AddressStep) -> Told {
    match step {
        AddressStep::Ask(name) => Told::Ask(name.as_bytes().to_vec()),
        AddressStep::Outcome(own) => told(own),
    }
}

fn told(own: AddressOutcome) -> Told {
    Told::Verdict(verdict(own))
}
