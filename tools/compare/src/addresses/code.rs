//! The code that is held to the book.

pub mod interface;
mod safe;

use crate::alike::in_both;
use sheets::programs::checks::{Call, Told};
use sheets::programs::lent::FILL;
use waslidhaj::raw::Check;
use waslidhaj::AddressCheck;

/// An address check by its calls.
pub trait Checks: Clone {
    /// What a refused call leaves as it was.
    type State: PartialEq;

    /// Makes a call with this lent memory; the error is of what no call may give.
    fn make(&mut self, call: &Call, lent: &mut [u8]) -> Result<Told, String>;

    fn state(&self) -> Self::State;
}

/// The proved code: each call by the C interface, and again by the safe one.
#[derive(Clone, Default)]
pub struct Proved {
    check: AddressCheck,
    /// How many errors were answered: each gets another number.
    errors: u8,
}

impl Proved {
    /// Goes on from a check.
    pub fn from(check: Check) -> Proved {
        Proved {
            check: AddressCheck::from_raw(check),
            errors: 0,
        }
    }
}

impl Checks for Proved {
    type State = Check;

    fn make(&mut self, call: &Call, lent: &mut [u8]) -> Result<Told, String> {
        self.errors = self.errors.wrapping_add(1);
        let mut own = vec![FILL; lent.len()];
        let check = *self.check.raw();
        let (check, told) = interface::make(check, call, self.errors.max(2), &mut own)?;
        let safe = safe::make(&mut self.check, call, lent);
        let leaves = own == lent && check == *self.check.raw();
        in_both(told, safe, leaves)
    }

    fn state(&self) -> Check {
        *self.check.raw()
    }
}
