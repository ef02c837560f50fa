//! Calls with arguments of a seed, and what each may give and leave.

use std::fmt::Debug;

use super::lent::Lent;
use super::tally::Tally;
use evaluator::txt;
use sheets::random::Random;
use waslidhaj::raw::{self, Written};

/// Sets the choices of the arguments apart.
const ARGUMENTS: u64 = 0x6172_6775_6d65_6e74;
/// As many steps are taken from a state or a check.
const STEPS: usize = 20;
pub const DOMAINS: [&[u8]; 8] = [
    b"example.com",
    b"Mail.Example.com.",
    b"a",
    b"a..b",
    b"",
    b".",
    b"\xff\0",
    b"a.b.c.d.e.f.g.h.i.j",
];
const BYTES: [&[u8]; 5] = [
    b"TX\0\x13\x12v=DMARC1; p=reject",
    b"TX\0\x1a\x19v=DMARC1; p=none; psd=y; TX\0\x02\x01a",
    b"TX\0\x02\x02a",
    b"",
    b"TX",
];
pub const SIZES: [usize; 8] = [0, 1, 25, 26, 31, 253, 4_095, 4_096];

/// The calls that evaluations and checks have in common.
pub trait Steps {
    type Value: Copy + PartialEq;
    type Called: Gives<Value = Self::Value>;

    /// Enough for the name that any value gives.
    const NAME_OCTETS: usize;

    fn next(&self, value: Self::Value) -> Self::Called;

    fn answer(
        &self,
        value: Self::Value,
        name: &[u8],
        status: u8,
        bytes: &[u8],
        scratch: &mut [u8],
    ) -> Self::Called;

    /// With the value as it was.
    fn result(&self, value: Self::Value) -> Self::Called;

    fn name(&self, value: Self::Value, walk: usize, place: usize, out: &mut [u8]) -> Written;
}

/// What a call gives, and the value to go on with.
pub trait Gives: Debug + PartialEq {
    type Value;

    fn value(&self) -> &Self::Value;
    fn kind(&self) -> u8;
    fn refusal(&self) -> raw::Refusal;
    /// The walk and the place of the name to ask.
    fn marks(&self) -> (usize, usize);
    /// Whether it has nothing but what its kind has.
    fn is_alone(&self) -> bool;
    /// Whether a call that gives this may have changed the value.
    fn goes_on(&self) -> bool;
}

/// What a call may give.
pub struct Rule {
    word: &'static str,
    kinds: &'static [u8],
    refusals: &'static [u8],
}

pub const fn rule(word: &'static str, kinds: &'static [u8], refusals: &'static [u8]) -> Rule {
    Rule {
        word,
        kinds,
        refusals,
    }
}

const NEXT: Rule = rule("next", &[raw::ASK, raw::VERDICT], &[7]);
const ANSWER: Rule = rule("answer", &[raw::ACCEPTED], &[5, 6, 10]);
const RESULT: Rule = rule("result", &[raw::VERDICT], &[7]);

/// Makes calls, and counts them.
pub struct Hand<'t> {
    pub random: Random,
    tally: &'t mut Tally,
}

impl<'t> Hand<'t> {
    pub fn new(seed: u64, index: u64, tally: &'t mut Tally) -> Hand<'t> {
        Hand {
            random: Random::of(seed ^ ARGUMENTS, index),
            tally,
        }
    }

    /// Every call on a value, and on those that its steps lead to.
    pub fn check<S: Steps>(
        &mut self,
        own: &S,
        mut value: S::Value,
        every_call: impl Fn(&S, &mut Hand, S::Value) -> Result<(), String>,
    ) -> Result<(), String> {
        every_call(own, self, value)?;
        for _ in 0..STEPS {
            let next = self.next(own, value)?;
            value = *next.value();
            if next.kind() != raw::ASK {
                break;
            }
            let name = self.name(own, value, next.marks())?;
            value = self.answer(own, value, &name)?;
        }
        every_call(own, self, value)
    }

    pub fn next<S: Steps>(&mut self, own: &S, value: S::Value) -> Result<S::Called, String> {
        let (called, _) = self.called(&NEXT, &value, 0, |_| own.next(value))?;
        Ok(called)
    }

    pub fn result<S: Steps>(&mut self, own: &S, value: S::Value) -> Result<(), String> {
        self.called(&RESULT, &value, 0, |_| own.result(value))?;
        Ok(())
    }

    /// An answer for a name. Where it is accepted, the scratch has its texts and
    /// nothing else is written.
    pub fn answer<S: Steps>(
        &mut self,
        own: &S,
        value: S::Value,
        name: &[u8],
    ) -> Result<S::Value, String> {
        let status = self.random.pick(&[0, 0, 1, 2, 3, 255]);
        let bytes = self.random.pick(&BYTES);
        let size = self.random.pick(&[4_096, 4_096, 4_096, 4_097, 4_095, 0]);
        let make = |out: &mut [u8]| own.answer(value, name, status, bytes, out);
        let (called, lent) = self.called(&ANSWER, &value, size, make)?;
        if called.kind() == raw::ACCEPTED {
            let records = if status == 0 { bytes } else { b"" };
            let Some(texts) = txt::texts(records) else {
                return Err("an unreadable answer is accepted".to_string());
            };
            let text = texts.concat();
            if lent.front(text.len()) != text || !lent.only(text.len()) {
                return Err("the scratch has something else".to_string());
            }
        }
        Ok(*called.value())
    }

    pub fn name<S: Steps>(
        &mut self,
        own: &S,
        value: S::Value,
        (walk, place): (usize, usize),
    ) -> Result<Vec<u8>, String> {
        self.written(S::NAME_OCTETS, |out| own.name(value, walk, place, out))
    }

    pub fn number(&mut self) -> usize {
        match self.random.below(3) {
            0 => self.random.number() as usize,
            1 => self.random.below(18),
            _ => self.random.below(300),
        }
    }

    /// Counts what a call gives.
    pub fn count(&mut self, word: &str, kind: u8) {
        self.tally.add(word, kind);
    }

    /// Makes a call with this much lent memory, and holds it to what it may give.
    pub fn called<G: Gives<Value: PartialEq>>(
        &mut self,
        rule: &Rule,
        before: &G::Value,
        size: usize,
        make: impl Fn(&mut [u8]) -> G,
    ) -> Result<(G, Lent), String> {
        let (called, lent) = twice(size, make)?;
        let fault = |what: &str| Err(format!("{}: {what}: {called:?}", rule.word));
        let refused = called.kind() == raw::REFUSED;
        let allowed = match refused {
            true => rule.refusals.contains(&called.refusal().number),
            false => rule.kinds.contains(&called.kind()),
        };
        if !allowed || !called.is_alone() {
            return fault("it may not give this");
        }
        if !called.goes_on() && called.value() != before {
            return fault("the state or check was changed");
        }
        if refused && !lent.only(0) {
            return fault("memory was written");
        }
        self.count(rule.word, called.kind());
        Ok((called, lent))
    }

    /// What a writer writes: so many octets are always enough, fewer than the text
    /// has are refused 10.
    pub fn written(
        &mut self,
        enough: usize,
        write: impl Fn(&mut [u8]) -> Written,
    ) -> Result<Vec<u8>, String> {
        let (written, lent) = twice(enough, &write)?;
        let fault = |written: &Written| Err(format!("a name or domain: {written:?}"));
        if written.refusal.number != 0 || !lent.only(written.length) {
            return fault(&written);
        }
        let size = self.random.pick(&SIZES);
        let (other, part) = twice(size, &write)?;
        let refused = raw::Refusal {
            number: 10,
            place: written.length,
        };
        let expected = match size >= written.length {
            true => written,
            false => Written {
                refusal: refused,
                length: 0,
            },
        };
        match other == expected && part.only(other.length) {
            true => Ok(lent.front(written.length).to_vec()),
            false => fault(&other),
        }
    }
}

/// Makes a call twice with this much lent memory, which must give the same.
pub fn twice<T: PartialEq>(
    size: usize,
    make: impl Fn(&mut [u8]) -> T,
) -> Result<(T, Lent), String> {
    let mut once = (Lent::of(size), Lent::of(size));
    let given = make(once.0.part());
    let again = make(once.1.part());
    match given == again && once.0 == once.1 {
        true => Ok((given, once.0)),
        false => Err("the same call gives something else".to_string()),
    }
}
