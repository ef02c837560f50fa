//! Every call on one check.

use super::code::Interface;
use crate::addresses::interface::{alone, goes_on};
use crate::states::hand::{rule, Gives, Hand, Rule, DOMAINS};
use waslidhaj::raw::{self, Check, CheckCalled};

const ENTRIES: [&[u8]; 6] = [
    b"mailto:a@example.com",
    b" MAILTO:@a.b@Mail.Example.com. ",
    b"mailto:a@b,",
    b"https://example.com",
    b"",
    b"mailto:\xff@a",
];

const START: Rule = rule("start", &[raw::ACCEPTED], &[11, 23]);

impl Gives for CheckCalled {
    type Value = Check;

    fn value(&self) -> &Check {
        &self.check
    }

    fn kind(&self) -> u8 {
        self.given.kind
    }

    fn refusal(&self) -> raw::Refusal {
        self.given.refusal
    }

    fn marks(&self) -> (usize, usize) {
        (self.given.walk, self.given.place)
    }

    fn is_alone(&self) -> bool {
        self.given == alone(&self.given)
    }

    fn goes_on(&self) -> bool {
        goes_on(&self.given)
    }
}

/// Makes them with arguments of a seed.
pub fn every_call(own: &impl Interface, hand: &mut Hand, check: Check) -> Result<(), String> {
    let policy = hand.random.pick(&DOMAINS);
    let entry = hand.random.pick(&ENTRIES);
    hand.called(&START, &check, 0, |_| own.start(check, policy, entry))?;
    hand.next(own, check)?;
    hand.answer(own, check, policy)?;
    hand.result(own, check)?;
    let marks = (hand.number(), hand.number());
    hand.name(own, check, marks)?;
    Ok(())
}
