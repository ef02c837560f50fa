//! A check with the answers of all names.

use super::addresses::{domains, start};
use super::call::StartCall;
use super::confirming;
use crate::generate::texts;
use crate::random::Random;
use evaluator::address::Address;
use evaluator::domain::Domain;
use evaluator::txt::Status;

/// An answer as it is handed in.
pub type Given = (Status, Vec<u8>);

/// A start, the answers of some names, and that of all others.
pub struct Plan {
    pub start: StartCall,
    answers: Vec<(Vec<u8>, Given)>,
    other: Given,
}

const NONE: Given = (Status::None, Vec::new());

impl Plan {
    /// A check of any kind.
    pub fn of(random: &mut Random) -> Plan {
        let (policy, host) = domains(random);
        let start = start(random, &policy, &host);
        let other = match random.below(16) {
            // A wildcard answers every name alike.
            0 => (Status::Records, confirming::records(random, &policy, &host)),
            1 => (Status::Error, Vec::new()),
            _ => NONE,
        };
        let mut plan = Plan {
            start,
            answers: Vec::new(),
            other,
        };
        if random.percent(85) {
            plan.fill(random);
        }
        plan
    }

    /// The answer of a name.
    pub fn answer(&self, name: &[u8]) -> Given {
        let own = self.answers.iter().find(|(own, _)| own == name);
        own.map_or(&self.other, |(_, given)| given).clone()
    }

    fn put(&mut self, name: Option<Vec<u8>>, given: Given) {
        self.answers.extend(name.map(|name| (name, given)));
    }

    /// Answers of the walks and of the confirming name.
    fn fill(&mut self, random: &mut Random) {
        let Ok(address) = Address::read(&self.start.policy, &self.start.entry) else {
            return;
        };
        let (policy, host) = (address.policy.octets(), address.host.octets());
        let confirming = confirming::answer(random, policy, host);
        self.put(Some(address.confirming_name()), confirming);
        if random.percent(30) {
            self.share(random, &address);
        }
        let rate = random.pick(&[0, 5, 20, 60]);
        let both = [&address.policy, &address.host];
        for target in both.into_iter().flat_map(Domain::walk_targets) {
            let given = walk_answer(random, rate);
            self.put(target.asked_name(), given);
        }
    }

    /// A record at a domain that is above both, if there is one.
    fn share(&mut self, random: &mut Random, address: &Address) {
        let above = address.host.walk_targets();
        let mut shared = address.policy.walk_targets();
        shared.retain(|target| above.contains(target));
        let at = random.below(shared.len());
        if let Some(target) = shared.get(at) {
            let record = texts::plain_answer(random, 5);
            self.put(target.asked_name(), (Status::Records, record));
        }
    }
}

/// The answer of a walk's name: in so many cases of a hundred there is something.
fn walk_answer(random: &mut Random, rate: usize) -> Given {
    if !random.percent(rate) {
        return NONE;
    }
    match random.below(16) {
        0 => (Status::Error, Vec::new()),
        1 => (Status::Records, Vec::new()),
        2 => (Status::Records, texts::repeating_answer(random, 25)),
        3..=5 => (Status::Records, texts::answer(random, 25)),
        6..=9 => (Status::Records, texts::wide_answer(random)),
        _ => (Status::Records, texts::plain_answer(random, 30)),
    }
}
