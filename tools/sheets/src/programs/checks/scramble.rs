//! Random checks of a seed, and a random order of their calls: refused ones, ones
//! that come too early and ones that come again in between.

use super::call::Call;
use super::plan::Plan;
use super::refused;
use crate::generate::domains::dotted;
use crate::programs::calls::scramble::{LONG, RECORD, SHORT, UNREADABLE};
use crate::programs::calls::AnswerCall;
use crate::programs::lent::FILL;
use crate::random::Random;
use evaluator::address::book::AddressBook;
use evaluator::address::Address;
use evaluator::txt::Status;

/// Sets the choices of a seed apart from each other.
const CHECKS: u64 = 0x6164_6472_6573_7365;
const ORDER: u64 = 0x6f72_6465_7221_2121;
/// As many old names are kept.
const OLD_NAMES: usize = 40;

/// The calls of checks of a seed, check by check.
pub struct Seeded {
    scrambler: Scrambler,
    seed: u64,
    index: u64,
}

impl Seeded {
    pub fn new(seed: u64) -> Seeded {
        let mut scrambler = Scrambler::new(Random::of(seed ^ ORDER, 0));
        scrambler.before_a_start();
        Seeded {
            scrambler,
            seed,
            index: 0,
        }
    }
}

impl Iterator for Seeded {
    type Item = Vec<Call>;

    fn next(&mut self) -> Option<Vec<Call>> {
        let mut random = Random::of(self.seed ^ CHECKS, self.index);
        self.scrambler.check(&Plan::of(&mut random));
        self.index += 1;
        Some(std::mem::take(&mut self.scrambler.made))
    }
}

struct Scrambler {
    random: Random,
    book: AddressBook,
    made: Vec<Call>,
    /// Names that were asked, of this check and of others.
    old_names: Vec<Vec<u8>>,
    /// How often something comes in between, in percent.
    often: usize,
}

impl Scrambler {
    fn new(random: Random) -> Scrambler {
        Scrambler {
            random,
            book: AddressBook::default(),
            made: Vec::new(),
            old_names: vec![b"_dmarc.example.com".to_vec()],
            often: 0,
        }
    }

    /// Makes a call.
    fn push(&mut self, call: Call) {
        let mut lent = vec![FILL; call.lent()];
        call.make(&mut self.book, &mut lent);
        self.made.push(call);
    }

    fn push_answer(&mut self, name: &[u8], status: Status, bytes: &[u8], scratch: u16) {
        self.push(Call::Answer(AnswerCall {
            status,
            scratch,
            name: name.to_vec(),
            bytes: bytes.to_vec(),
        }));
    }

    /// Calls where nothing was started, and where starts were refused.
    fn before_a_start(&mut self) {
        for policy in refused::POLICIES {
            self.push(Call::Next);
            self.push(Call::Result);
            self.push_answer(b"_dmarc.example.com", Status::Records, RECORD, 4096);
            self.push_answer(b"", Status::Error, b"", 0);
            let start = super::StartCall::new(policy, b"mailto:a@b.c");
            self.push(Call::Start(start));
        }
    }

    /// One check from its start to after its verdict, or as far as it comes before
    /// it is left.
    fn check(&mut self, plan: &Plan) {
        self.often = self.random.pick(&[0, 15, 30, 45, 60]);
        self.start_over(plan);
        let left = self.random.percent(12);
        let mut steps = match left {
            true => self.random.below(12),
            false => usize::MAX,
        };
        let mut again = self.random.pick(&[0, 0, 0, 0, 0, 0, 1, 2]);
        while steps > 0 && self.step(plan) {
            self.disturb(plan);
            steps -= 1;
            if again > 0 && self.random.percent(20) {
                self.start_over(plan);
                again -= 1;
            }
        }
        match left {
            true => self.disturb(plan),
            false => self.after_the_verdict(plan),
        }
    }

    /// A start, and at times an answer for the name that was asked before it.
    fn start_over(&mut self, plan: &Plan) {
        let before = self.book.now_asked().map(<[u8]>::to_vec);
        self.push(Call::Start(plan.start.clone()));
        if let Some(name) = before.filter(|_| self.random.percent(30)) {
            self.push_answer(&name, Status::None, b"", 4096);
        }
        self.disturb(plan);
    }

    /// The next name or its answer; false if there is a verdict.
    fn step(&mut self, plan: &Plan) -> bool {
        if self.book.result().is_ok() {
            return false;
        }
        match self.book.now_asked().map(<[u8]>::to_vec) {
            None => self.push(Call::Next),
            Some(name) => {
                self.refuse_answers(&name);
                self.answer(plan, &name);
            }
        }
        true
    }

    /// Calls that change nothing, or ask the next name.
    fn disturb(&mut self, plan: &Plan) {
        while self.random.percent(self.often) {
            match self.random.below(7) {
                0 | 1 => self.push(Call::Next),
                2 | 3 => self.push(Call::Result),
                4 => self.refuse_start(plan),
                _ => self.answer_wrongly(plan),
            }
        }
    }

    /// A start that is refused.
    fn refuse_start(&mut self, plan: &Plan) {
        let start = refused::start(&mut self.random, &plan.start);
        if Address::read(&start.policy, &start.entry).is_err() {
            self.push(Call::Start(start));
        }
    }

    /// An answer for a name that is not asked now: whatever else is wrong, 5.
    fn answer_wrongly(&mut self, plan: &Plan) {
        let name = self.wrong_name(plan);
        let status = [Status::Records, Status::None, Status::Error][self.random.below(3)];
        let bytes = match self.random.below(3) {
            0 => RECORD,
            1 => self.random.pick(&UNREADABLE),
            _ => b"",
        };
        let scratch = self.random.pick(&[4096, 4095, 0]);
        if self.book.now_asked() != Some(name.as_slice()) {
            self.push_answer(&name, status, bytes, scratch);
        }
    }

    /// An old name, one that will be asked later, or one that is near that now
    /// asked.
    fn wrong_name(&mut self, plan: &Plan) -> Vec<u8> {
        let asked = self.book.now_asked().map(<[u8]>::to_vec);
        let next = self.book.names().pop().map(|next| next.name);
        let mut name = asked.or(next).unwrap_or_default();
        match self.random.below(8) {
            0 => name.extend(b".."),
            1 => name = name.split_off(name.len().min(7)),
            2 => name.clear(),
            3 => {
                name.pop();
            }
            4 => name.insert(0, b'x'),
            5 => {
                let address = Address::read(&plan.start.policy, &plan.start.entry);
                name = address.map_or(name, |address| address.confirming_name());
            }
            6 => {
                let at = self.random.below(self.old_names.len());
                name = self.old_names.get(at).cloned().unwrap_or_default();
            }
            _ => {
                let at = self.random.below(name.len());
                // No letter becomes itself in the other case.
                if let Some(octet) = name.get_mut(at) {
                    *octet ^= 1;
                }
            }
        }
        name
    }

    /// Refused answers for the name now asked: 6 before 10.
    fn refuse_answers(&mut self, name: &[u8]) {
        let rate = self.often / 2;
        if self.random.percent(rate) {
            let bytes = self.random.pick(&UNREADABLE);
            let scratch = self.random.pick(&[4096, 4095, 0]);
            self.push_answer(name, Status::Records, bytes, scratch);
        }
        if self.random.percent(rate) {
            let scratch = self.random.pick(&SHORT);
            self.push_answer(name, Status::Records, RECORD, scratch);
        }
        if self.random.percent(rate / 2) {
            let status = [Status::None, Status::Error][self.random.below(2)];
            let bytes = self.random.pick(&UNREADABLE);
            let scratch = self.random.pick(&SHORT);
            self.push_answer(name, status, bytes, scratch);
        }
        if self.random.percent(rate / 8) {
            let records = b"TX\0\x02\x01a".repeat(17);
            self.push_answer(name, Status::Records, &records, 4096);
        }
    }

    /// The answer for the name now asked, in either case, at times with a final
    /// dot. One that cannot be read is followed by one without bytes.
    fn answer(&mut self, plan: &Plan, name: &[u8]) {
        let (status, mut bytes) = plan.answer(name);
        if status != Status::Records && self.random.percent(30) {
            bytes = self.random.pick(&UNREADABLE).to_vec();
        }
        let given = match self.random.below(4) {
            0 => name.to_ascii_uppercase(),
            _ => name.to_vec(),
        };
        let given = dotted(&mut self.random, given, 20);
        let scratch = self.random.pick(&LONG);
        self.push_answer(&given, status, &bytes, scratch);
        if self.book.now_asked().is_some() {
            self.push_answer(&given, Status::Records, b"", scratch);
        }
        if self.random.percent(self.often / 4) {
            // The same answer again.
            self.push_answer(&given, status, &bytes, scratch);
        }
        self.old_names.push(name.to_vec());
        if self.old_names.len() > OLD_NAMES {
            self.old_names.remove(0);
        }
    }

    /// The verdict by both calls, each more than once, with refused calls among
    /// them.
    fn after_the_verdict(&mut self, plan: &Plan) {
        let mut calls = vec![Call::Next, Call::Result, Call::Next, Call::Result];
        let last = self.old_names.last().cloned().unwrap_or_default();
        calls.push(Call::Answer(AnswerCall::none(&last)));
        self.random.shuffle(&mut calls);
        for call in calls {
            self.push(call);
            if self.random.percent(8) {
                self.refuse_start(plan);
            }
        }
    }
}
