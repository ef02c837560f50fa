//! The code that is held to the book.

pub mod interface;
pub mod safe;

use crate::alike::in_both;
use sheets::programs::calls::{Call, Told};
use sheets::programs::lent::FILL;
use waslidhaj::raw::State;
use waslidhaj::Evaluation;

/// An evaluation by its calls.
pub trait Calls: Clone {
    /// What a refused call leaves as it was.
    type State: PartialEq;

    /// Makes a call with this lent memory; the error is of what no call may give.
    fn make(&mut self, call: &Call, lent: &mut [u8]) -> Result<Told, String>;

    fn state(&self) -> Self::State;
}

/// The proved code: each call by the C interface, and again by the safe one.
#[derive(Clone, Default)]
pub struct Proved {
    evaluation: Evaluation,
    /// How many errors were answered: each gets another number.
    errors: u8,
}

impl Proved {
    /// Goes on from a state.
    pub fn from(state: State) -> Proved {
        Proved {
            evaluation: Evaluation::from_raw(state),
            errors: 0,
        }
    }
}

impl Calls for Proved {
    type State = State;

    fn make(&mut self, call: &Call, lent: &mut [u8]) -> Result<Told, String> {
        self.errors = self.errors.wrapping_add(1);
        let mut own = vec![FILL; lent.len()];
        let state = *self.evaluation.raw();
        let (state, told) = interface::make(state, call, self.errors.max(2), &mut own)?;
        let safe = safe::make(&mut self.evaluation, call, lent);
        let leaves = own == lent && state == *self.evaluation.raw();
        in_both(told, safe, leaves)
    }

    fn state(&self) -> State {
        *self.evaluation.raw()
    }
}
