//! The calls of a check, as the C interface has them.

use crate::states::hand::Steps;
use waslidhaj::raw::{Check, CheckCalled, Written};
use waslidhaj::{calls, CHECK_NAME_OCTETS};

/// The C interface; what is not said otherwise is the proved code's.
pub trait Interface: Steps<Value = Check, Called = CheckCalled> {
    fn start(&self, check: Check, policy: &[u8], entry: &[u8]) -> CheckCalled {
        calls::check_start(check, policy, entry)
    }
}

/// The proved code.
pub struct Proved;

impl Interface for Proved {}

impl Steps for Proved {
    type Value = Check;
    type Called = CheckCalled;

    const NAME_OCTETS: usize = CHECK_NAME_OCTETS;

    fn next(&self, check: Check) -> CheckCalled {
        calls::check_next(check)
    }

    fn answer(
        &self,
        check: Check,
        name: &[u8],
        status: u8,
        bytes: &[u8],
        scratch: &mut [u8],
    ) -> CheckCalled {
        calls::check_answer(check, name, status, bytes, scratch)
    }

    fn result(&self, check: Check) -> CheckCalled {
        let given = calls::check_result(check);
        CheckCalled { check, given }
    }

    fn name(&self, check: Check, walk: usize, place: usize, out: &mut [u8]) -> Written {
        calls::check_name(check, walk, place, out)
    }
}
