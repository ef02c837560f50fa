//! Every call on one state.

use super::code::Interface;
use super::hand::{rule, twice, Gives, Hand, Rule, DOMAINS, SIZES};
use crate::calls::interface::alone;
use waslidhaj::raw::{self, Called, Found, State};
use waslidhaj::NAME_OCTETS;

const OPEN: Rule = rule("open", &[raw::ACCEPTED], &[1, 3]);
const ADD: Rule = rule("add", &[raw::ACCEPTED], &[17, 3, 4, 2]);
const FIELD: Rule = rule("field", &[raw::ACCEPTED], &[7, 9, 10]);

impl Gives for Called {
    type Value = State;

    fn value(&self) -> &State {
        &self.state
    }

    fn kind(&self) -> u8 {
        self.given.kind
    }

    fn refusal(&self) -> raw::Refusal {
        self.given.refusal
    }

    fn marks(&self) -> (usize, usize) {
        (self.given.walk, self.given.place)
    }

    fn is_alone(&self) -> bool {
        self.given == alone(&self.given)
    }

    fn goes_on(&self) -> bool {
        self.given.kind != raw::REFUSED
    }
}

/// Makes them with arguments of a seed.
pub fn every_call(own: &impl Interface, hand: &mut Hand, state: State) -> Result<(), String> {
    let [first, second] = [(); 2].map(|()| hand.random.below(4) as u8);
    let domain = hand.random.pick(&DOMAINS);
    hand.called(&OPEN, &state, 0, |_| own.open(state, domain, first, second))?;
    hand.called(&ADD, &state, 0, |_| own.add(state, first, second, domain))?;
    hand.next(own, state)?;
    hand.answer(own, state, domain)?;
    hand.result(own, state)?;
    field(own, hand, state)?;
    finding(own, hand, state)?;
    let marks = (hand.number(), hand.number());
    hand.name(own, state, marks)?;
    let begin = hand.number();
    hand.written(NAME_OCTETS, |out| own.domain(state, begin, out))?;
    Ok(())
}

fn field(own: &impl Interface, hand: &mut Hand, state: State) -> Result<(), String> {
    let size = hand.random.pick(&SIZES);
    let make = |out: &mut [u8]| Called {
        state,
        given: own.field(state, out),
    };
    let (called, lent) = hand.called(&FIELD, &state, size, make)?;
    let length = called.given.length;
    if called.given.kind == raw::ACCEPTED {
        let text = lent.front(length);
        let form = text.starts_with(b"Identity-Alignment: ") && text.ends_with(b"\r\n");
        if !form || !lent.only(length) {
            return Err("another field is written".to_string());
        }
    }
    Ok(())
}

fn finding(own: &impl Interface, hand: &mut Hand, state: State) -> Result<(), String> {
    let (found, _) = twice(0, |_| own.finding(state))?;
    let only = Found {
        kind: found.kind,
        refusal: found.refusal,
        ..Found::default()
    };
    let allowed = match found.kind {
        raw::VERDICT => found.refusal == raw::Refusal::default(),
        _ => found == only && found.kind == raw::REFUSED && found.refusal.number == 7,
    };
    hand.count("finding", found.kind);
    match allowed {
        true => Ok(()),
        false => Err(format!("finding: it may not give this: {found:?}")),
    }
}
