//! Random messages of a seed, and a random order of their calls.

use super::super::accepted::Plan;
use super::super::call::{Call, OpenCall};
use super::super::refused;
use super::Scrambler;
use crate::generate::domains::{dotted, recased};
use crate::generate::{self, mutated};
use crate::random::Random;
use evaluator::book::Book;
use evaluator::txt::Status;

/// Sets the choices of a seed apart from those of the sheets.
const MESSAGES: u64 = 0x6d65_7373_6167_6573;
const ORDER: u64 = 0x6f72_6465_7221_2121;
/// As many old names are kept.
const OLD_NAMES: usize = 40;

/// The calls of messages of a seed, message by message.
pub struct Seeded {
    scrambler: Scrambler,
    seed: u64,
    index: u64,
}

impl Seeded {
    pub fn new(seed: u64) -> Seeded {
        let mut scrambler = Scrambler::new(Random::of(seed ^ ORDER, 0));
        scrambler.before_an_opening();
        Seeded {
            scrambler,
            seed,
            index: 0,
        }
    }
}

impl Iterator for Seeded {
    type Item = Vec<Call>;

    fn next(&mut self) -> Option<Vec<Call>> {
        let (seed, index) = (self.seed, self.index);
        self.scrambler.refusable(seed, index);
        self.scrambler.message(&plan(seed, index)?);
        self.index += 1;
        Some(std::mem::take(&mut self.scrambler.made))
    }
}

/// A message and its answers as the sheets have them: of a hostile sheet, where
/// that can be read, or of an ordinary one.
fn plan(seed: u64, index: u64) -> Option<Plan> {
    let mut random = Random::of(seed ^ MESSAGES, index);
    let hostile = random.percent(30).then(|| hostile(seed, index)).flatten();
    let ordinary = || Plan::of_sheet(&generate::ordinary(seed, index));
    let missing = [Status::None, Status::None, Status::Error][random.below(3)];
    let mut plan = hostile.or_else(ordinary)?;
    plan.missing = missing;
    Some(plan)
}

/// The message of a hostile sheet, if that can be read.
fn hostile(seed: u64, index: u64) -> Option<Plan> {
    Plan::of_sheet(&generate::hostile(seed, index))
}

/// The opening of a hostile sheet, if it is refused.
fn refused_opening(seed: u64, index: u64) -> Option<OpenCall> {
    let open = hostile(seed ^ MESSAGES, index)?.open;
    open.make(&mut Book::default()).is_err().then_some(open)
}

impl Scrambler {
    /// Sees to it that there are openings that are refused.
    fn refusable(&mut self, seed: u64, index: u64) {
        if self.refused.is_empty() {
            self.refused = refused::openings();
        }
        self.refused.extend(refused_opening(seed, index));
    }

    /// One message from its opening to after its verdict, or as far as it comes
    /// before it is left. Where its opening is refused the last one goes on.
    fn message(&mut self, plan: &Plan) {
        self.often = self.random.pick(&[0, 15, 30, 45, 60]);
        self.open_over(plan);
        self.disturb();
        let left = self.random.percent(15);
        let mut steps = match left {
            true => self.random.below(12),
            false => usize::MAX,
        };
        let mut again = self.random.pick(&[0, 0, 0, 0, 0, 0, 0, 0, 1, 2]);
        while steps > 0 && self.step(plan) {
            self.disturb();
            steps -= 1;
            if again > 0 && self.random.percent(20) {
                self.open_over(plan);
                again -= 1;
            }
        }
        match !left && self.random.percent(60) {
            true => self.after_the_verdict(),
            false => self.disturb(),
        }
    }

    /// An opening, at times an answer for the name that was asked before it, and
    /// the identifiers.
    fn open_over(&mut self, plan: &Plan) {
        let before = self.book.now_asked().map(<[u8]>::to_vec);
        self.push(Call::Open(plan.open.clone()));
        if let Some(name) = before.filter(|_| self.random.percent(30)) {
            self.push_answer(&name, plan.missing, b"", 4096);
        }
        self.add_identifiers(plan);
    }

    /// The identifiers in turn: at times others among them, a next step before
    /// some of them, or an opening after which only the rest come.
    fn add_identifiers(&mut self, plan: &Plan) {
        let rate = self.rate() / 4;
        let cut = self.random.percent(15);
        let cut = cut.then(|| self.random.below(plan.adds.len()));
        for (index, given) in plan.adds.iter().enumerate() {
            self.disturb_adding();
            if self.random.percent(rate) {
                let other = self.identifier();
                self.push(Call::Add(other));
            }
            if cut == Some(index) {
                let over = self.random.percent(40);
                let open = || Call::Open(plan.open.clone());
                self.push(if over { open() } else { Call::Next });
            }
            self.push(Call::Add(given.clone()));
        }
    }

    /// Asks the next name, or answers the one now asked; false where there is no
    /// name to be asked.
    fn step(&mut self, plan: &Plan) -> bool {
        let Some(name) = self.book.now_asked().map(<[u8]>::to_vec) else {
            self.push(Call::Next);
            return self.book.now_asked().is_some();
        };
        self.keep_old(&name);
        self.refuse_answers(&name);
        self.answer_nearly(plan, &name);
        if self.book.now_asked().is_some() {
            self.answer(plan, &name);
        }
        if self.book.now_asked().is_some() {
            // The planned answer cannot be read.
            self.push_answer(&name, plan.missing, b"", 4096);
        }
        true
    }

    /// At times an answer that is nearly the planned one, which may be accepted.
    fn answer_nearly(&mut self, plan: &Plan, name: &[u8]) {
        let rate = self.rate() / 4;
        let (status, bytes) = plan.answer(name);
        if status == Status::Records && self.random.percent(rate) {
            let bytes = mutated(&mut self.random, bytes);
            self.push_answer(name, status, &bytes, 4096);
        }
    }

    fn keep_old(&mut self, name: &[u8]) {
        if self.old_names.len() >= OLD_NAMES {
            let at = self.random.below(OLD_NAMES);
            self.old_names.swap_remove(at);
        }
        self.old_names.push(name.to_vec());
    }

    /// At times a name that was asked once and is not asked now, in any spelling;
    /// none where no old names are kept.
    pub(super) fn old_name(&mut self) -> Option<Vec<u8>> {
        if self.old_names.is_empty() || !self.random.percent(40) {
            return None;
        }
        let at = self.random.below(self.old_names.len());
        let name = self.old_names.get(at).cloned()?;
        if self.book.now_asked() == Some(&name) {
            return None;
        }
        let name = recased(&mut self.random, name, 30);
        Some(dotted(&mut self.random, name, 20))
    }
}
