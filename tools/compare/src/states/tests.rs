//! The check sees what a call may not do.

use std::cell::Cell;

use super::code::{Interface, Proved};
use super::hand::Steps;
use super::lent::Lent;
use super::tally::Tally;
use super::{compare, WANTED};
use crate::calls::tests::twin::{Twin, Wrong as WrongCalls};
use crate::wrongs::wrongs;
use waslidhaj::raw::{self, Called, Found, Given, State, Written};
use waslidhaj::NAME_OCTETS;

wrongs! {
    RefusedOpenChanges
    RefusedAddChanges
    RefusedAnswerChanges
    RefusedAnswerWrites
    ScratchFilled
    FieldPastItsEnd
    RefusalOfAnotherCall
    NumberZero
    AskWithALength
    AskNotDeferred
    RefusalNotDeferred
    ResultAccepted
    NameTooLong
    NamePastItsEnd
    ShortDomainWritten
    NeededOneMore
    OnceThisOnceThat
    FindingWithBoth
}

use Wrong::*;

/// The proved code with something wrong.
struct Spoilt(Wrong, Cell<usize>);

impl Spoilt {
    fn is(&self, wrong: Wrong) -> bool {
        self.0 == wrong
    }

    /// A refused call that gives another state.
    fn changed(&self, wrong: Wrong, mut called: Called) -> Called {
        if self.is(wrong) && called.given.kind == raw::REFUSED {
            called.state.more ^= 1;
        }
        called
    }
}

impl Interface for Spoilt {
    fn open(&self, state: State, author: &[u8], existence: u8, support: u8) -> Called {
        let mut called = Proved.open(state, author, existence, support);
        if called.given.kind == raw::REFUSED {
            match self.0 {
                RefusalOfAnotherCall => called.given.refusal.number = 7,
                NumberZero => called.given.refusal.number = 0,
                RefusalNotDeferred => {
                    let verdict = &mut called.given.verdict;
                    (verdict.result, verdict.policy, verdict.disposition) = (0, 0, 0);
                }
                _ => {}
            }
        }
        self.changed(RefusedOpenChanges, called)
    }

    fn add(&self, state: State, kind: u8, outcome: u8, domain: &[u8]) -> Called {
        self.changed(RefusedAddChanges, Proved.add(state, kind, outcome, domain))
    }

    fn field(&self, state: State, out: &mut [u8]) -> Given {
        let given = Proved.field(state, out);
        let past = out.get_mut(given.length).filter(|_| given.length > 0);
        if let (FieldPastItsEnd, Some(past)) = (self.0, past) {
            *past = 0;
        }
        given
    }

    fn domain(&self, state: State, begin: usize, out: &mut [u8]) -> Written {
        let written = Proved.domain(state, begin, out);
        match (self.0, out.first_mut()) {
            (ShortDomainWritten, Some(first)) if written.refusal.number == 10 => *first = 0,
            _ => {}
        }
        written
    }

    fn finding(&self, state: State) -> Found {
        let mut found = Proved.finding(state);
        if self.is(FindingWithBoth) && found.kind == raw::VERDICT {
            found.refusal.number = 7;
        }
        found
    }
}

impl Steps for Spoilt {
    type Value = State;
    type Called = Called;

    const NAME_OCTETS: usize = NAME_OCTETS;

    fn next(&self, state: State) -> Called {
        let mut called = Proved.next(state);
        if called.given.kind == raw::ASK {
            match self.0 {
                AskWithALength => called.given.length = 1,
                AskNotDeferred => called.given.verdict.disposition = 0,
                _ => {}
            }
        }
        called
    }

    fn answer(
        &self,
        state: State,
        name: &[u8],
        status: u8,
        bytes: &[u8],
        out: &mut [u8],
    ) -> Called {
        let called = Proved.answer(state, name, status, bytes, out);
        let refused = called.given.kind == raw::REFUSED;
        match (self.0, out.last_mut()) {
            (RefusedAnswerWrites, Some(last)) if refused => *last = 0,
            (ScratchFilled, Some(last)) if !refused => *last = 0,
            _ => {}
        }
        self.changed(RefusedAnswerChanges, called)
    }

    fn result(&self, state: State) -> Called {
        let mut called = Proved.result(state);
        match self.0 {
            ResultAccepted if called.given.kind == raw::REFUSED => called.given = Given::default(),
            OnceThisOnceThat => {
                self.1.set(self.1.get() + 1);
                let refusal = raw::Refusal {
                    number: 7,
                    place: self.1.get() % 2,
                };
                called.given = Given {
                    kind: raw::REFUSED,
                    refusal,
                    ..Given::default()
                };
            }
            _ => {}
        }
        called
    }

    fn name(&self, state: State, walk: usize, place: usize, out: &mut [u8]) -> Written {
        let mut written = Proved.name(state, walk, place, out);
        match (self.0, out.get_mut(written.length)) {
            (NameTooLong, _) => written.length = 254,
            (NamePastItsEnd, Some(past)) => *past = 0,
            (NeededOneMore, _) if written.refusal.number == 10 => written.refusal.place += 1,
            _ => {}
        }
        written
    }
}

fn right(_: State) -> Twin {
    Twin::new(WrongCalls::Nothing)
}

#[test]
fn every_fault_is_found() {
    for wrong in ALL.iter().copied() {
        let spoilt = Spoilt(wrong, Cell::new(0));
        let fault = compare(&spoilt, right, 3_000, 5);
        assert!(fault.is_err(), "{wrong:?} is not found");
    }
}

#[test]
fn the_proved_code() {
    let spoilt = Spoilt(Nothing, Cell::new(0));
    let line = compare(&spoilt, crate::calls::Proved::from, 1_000, 5).expect("no fault");
    assert!(line.starts_with("1000 states, "), "{line}");
}

/// What an evaluation that was opened over a state gives.
#[test]
fn an_opening_that_does_not_begin_afresh() {
    let late = |_| Twin::new(WrongCalls::AddsAfterTheFirstName);
    let fault = compare(&Proved, late, 1_000, 5).expect_err("another answer");
    assert!(fault.contains(": the answers differ\n"), "{fault}");
}

#[test]
fn an_answer_that_never_came() {
    let mut tally = Tally::new("states", &WANTED);
    tally.add("open", raw::ACCEPTED);
    let said = tally.complete();
    assert_eq!(said, Err("no open refused in 0 states".to_string()));
}

#[test]
fn guards() {
    let mut lent = Lent::of(3);
    assert!(lent.only(0) && lent.size() == 3);
    lent.part().copy_from_slice(b"ab\xff");
    assert!(lent.only(2) && lent.only(3) && !lent.only(1) && !lent.only(4));
    assert_eq!(lent.front(2), b"ab");
}
