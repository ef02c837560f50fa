//! The proved calls of a check, with what they give in the second evaluator's
//! values.

use evaluator::address::{Outcome, Verdict};
use evaluator::refusal::Refusal;
use evaluator::txt::{Answer, Status};
use sheets::address::{Calls, Step};
use waslidhaj::{AddressCheck, AddressOutcome, AddressStep, Agreement};

/// A check by the proved code.
#[derive(Default)]
pub struct Proved(AddressCheck);

impl Calls for Proved {
    fn start(&mut self, policy: &[u8], entry: &[u8]) -> Result<(), Refusal> {
        self.0.start_over(policy, entry).map_err(refusal)
    }

    fn next_step(&mut self) -> Result<Step, Refusal> {
        Ok(match self.0.next().map_err(refusal)? {
            AddressStep::Ask(name) => Step::Ask(name.as_bytes().to_vec()),
            AddressStep::Outcome(outcome) => Step::Verdict(verdict(outcome)),
        })
    }

    fn answer(&mut self, name: &[u8], answer: Answer, scratch: &mut [u8]) -> Result<(), Refusal> {
        let answer = match answer.status {
            Status::Records => waslidhaj::Answer::Records(answer.bytes),
            Status::None => waslidhaj::Answer::NoRecords,
            Status::Error => waslidhaj::Answer::Error,
        };
        self.0.answer(name, answer, scratch).map_err(refusal)
    }
}

fn refusal(own: waslidhaj::Refusal) -> Refusal {
    Refusal::new(own.number, own.place)
}

/// The outcome in the second evaluator's values.
pub fn verdict(own: AddressOutcome) -> Verdict {
    let outcome = match own.agreement {
        Agreement::NotKnown => Outcome::NotKnown,
        Agreement::No => Outcome::No,
        Agreement::Inside => Outcome::Inside,
        Agreement::Confirmed => Outcome::Confirmed,
        Agreement::Replaced { begin, length } => Outcome::Replaced { begin, length },
    };
    Verdict {
        outcome,
        asked: own.asked,
    }
}
