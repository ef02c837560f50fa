//! The check sees what a call may not do.

use std::cell::Cell;

use super::code::{Interface, Proved};
use super::compare;
use crate::addresses::tests::twin::{Twin, Wrong as WrongCalls};
use crate::states::hand::Steps;
use crate::wrongs::wrongs;
use waslidhaj::raw::{self, Check, CheckCalled, CheckGiven, Written};
use waslidhaj::CHECK_NAME_OCTETS;

wrongs! {
    RefusedStartChanges
    RefusedAnswerChanges
    OutcomeChanges
    RefusedAnswerWrites
    ScratchFilled
    RefusalOfAnotherCall
    NumberZero
    AskWithAnAgreement
    OutcomeNotListed
    OutcomeWithAPlace
    OutcomeWithARefusal
    RefusedAndInside
    ResultAccepted
    NameTooLong
    NamePastItsEnd
    ShortNameWritten
    NeededOneMore
    OnceThisOnceThat
}

use Wrong::*;

/// The proved code with something wrong.
struct Spoilt(Wrong, Cell<bool>);

impl Spoilt {
    /// A call that may not change the check gives another.
    fn changed(&self, wrong: Wrong, mut called: CheckCalled) -> CheckCalled {
        if self.0 == wrong && matches!(called.given.kind, raw::OUTCOME | raw::REFUSED) {
            called.check.more ^= 1;
        }
        called
    }
}

impl Interface for Spoilt {
    fn start(&self, check: Check, policy: &[u8], entry: &[u8]) -> CheckCalled {
        let mut called = Proved.start(check, policy, entry);
        if called.given.kind == raw::REFUSED {
            match self.0 {
                RefusalOfAnotherCall => called.given.refusal.number = 7,
                NumberZero => called.given.refusal.number = 0,
                RefusedAndInside => called.given.agreement = raw::ADDRESS_INSIDE,
                _ => {}
            }
        }
        self.changed(RefusedStartChanges, called)
    }
}

impl Steps for Spoilt {
    type Value = Check;
    type Called = CheckCalled;

    const NAME_OCTETS: usize = CHECK_NAME_OCTETS;

    fn next(&self, check: Check) -> CheckCalled {
        let mut called = Proved.next(check);
        let given = &mut called.given;
        match (self.0, given.kind) {
            (AskWithAnAgreement, raw::ASK) => given.agreement = raw::ADDRESS_NO,
            (OutcomeNotListed, raw::OUTCOME) => given.agreement = 5,
            (OutcomeWithAPlace, raw::OUTCOME) => given.place = 1,
            (OutcomeWithARefusal, raw::OUTCOME) => given.refusal.number = 7,
            _ => {}
        }
        self.changed(OutcomeChanges, called)
    }

    fn answer(
        &self,
        check: Check,
        name: &[u8],
        status: u8,
        bytes: &[u8],
        out: &mut [u8],
    ) -> CheckCalled {
        let called = Proved.answer(check, name, status, bytes, out);
        let refused = called.given.kind == raw::REFUSED;
        match (self.0, out.last_mut()) {
            (RefusedAnswerWrites, Some(last)) if refused => *last = 0,
            (ScratchFilled, Some(last)) if !refused => *last = 0,
            _ => {}
        }
        self.changed(RefusedAnswerChanges, called)
    }

    fn result(&self, check: Check) -> CheckCalled {
        let mut called = Proved.result(check);
        let refused = called.given.kind == raw::REFUSED;
        match self.0 {
            ResultAccepted if refused => called.given = CheckGiven::default(),
            OnceThisOnceThat if refused => {
                self.1.set(!self.1.get());
                called.given.refusal.place = usize::from(self.1.get());
            }
            _ => {}
        }
        called
    }

    fn name(&self, check: Check, walk: usize, place: usize, out: &mut [u8]) -> Written {
        let mut written = Proved.name(check, walk, place, out);
        let short = written.refusal.number == 10;
        match (self.0, out.get_mut(written.length)) {
            (NameTooLong, _) => written.length = CHECK_NAME_OCTETS + 1,
            (NamePastItsEnd, Some(past)) if !short => *past = 0,
            (ShortNameWritten, Some(first)) if short => *first = 0,
            (NeededOneMore, _) if short => written.refusal.place += 1,
            _ => {}
        }
        written
    }
}

fn right(_: Check) -> Twin {
    Twin::new(WrongCalls::Nothing)
}

#[test]
fn every_fault_is_found() {
    for wrong in ALL.iter().copied() {
        let spoilt = Spoilt(wrong, Cell::new(false));
        let fault = compare(&spoilt, right, 3_000, 5);
        assert!(fault.is_err(), "{wrong:?} is not found");
    }
}

#[test]
fn the_proved_code() {
    let spoilt = Spoilt(Nothing, Cell::new(false));
    let line = compare(&spoilt, crate::addresses::Proved::from, 1_000, 5).expect("no fault");
    assert!(line.starts_with("1000 checks, "), "{line}");
}

/// What a check that was started over another gives.
#[test]
fn a_start_that_does_not_begin_afresh() {
    let first = |_| Twin::new(WrongCalls::HostFirst);
    let fault = compare(&Proved, first, 1_000, 5).expect_err("another answer");
    assert!(fault.contains(": the answers differ\n"), "{fault}");
}
