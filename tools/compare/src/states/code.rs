//! The calls on a state, as the C interface has them.

use super::hand::Steps;
use waslidhaj::raw::{Called, Found, Given, State, Written};
use waslidhaj::{calls, NAME_OCTETS};

/// The C interface; what is not said otherwise is the proved code's.
pub trait Interface: Steps<Value = State, Called = Called> {
    fn open(&self, state: State, author: &[u8], existence: u8, support: u8) -> Called {
        calls::open(state, author, existence, support)
    }

    fn add(&self, state: State, kind: u8, outcome: u8, domain: &[u8]) -> Called {
        calls::add(state, kind, outcome, domain)
    }

    fn field(&self, state: State, out: &mut [u8]) -> Given {
        calls::field(state, out)
    }

    fn domain(&self, state: State, begin: usize, out: &mut [u8]) -> Written {
        calls::domain(state, begin, out)
    }

    fn finding(&self, state: State) -> Found {
        calls::finding(state)
    }
}

/// The proved code.
pub struct Proved;

impl Interface for Proved {}

impl Steps for Proved {
    type Value = State;
    type Called = Called;

    const NAME_OCTETS: usize = NAME_OCTETS;

    fn next(&self, state: State) -> Called {
        calls::next(state)
    }

    fn answer(
        &self,
        state: State,
        name: &[u8],
        status: u8,
        bytes: &[u8],
        scratch: &mut [u8],
    ) -> Called {
        calls::answer(state, name, status, bytes, scratch)
    }

    fn result(&self, state: State) -> Called {
        let given = calls::result(state);
        Called { state, given }
    }

    fn name(&self, state: State, walk: usize, place: usize, out: &mut [u8]) -> Written {
        calls::name(state, walk, place, out)
    }
}
