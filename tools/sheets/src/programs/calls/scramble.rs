//! The order of the calls: each message is run to its verdict, with calls in
//! between that are refused, come too early or come again.

mod seeded;

pub use seeded::Seeded;

use super::accepted::Plan;
use super::call::{AddCall, AnswerCall, Call, OpenCall};
use super::{adding, refused};
use crate::generate::domains::dotted;
use crate::programs::lent::FILL;
use crate::random::Random;
use evaluator::book::Book;
use evaluator::txt::{self, Status};

const SEED: u64 = 7489;
/// How often something comes in between, in percent; and at most so often in a
/// message of more names than this.
const OFTEN: usize = 45;
const MANY_NAMES: usize = 30;
const SELDOM: usize = 5;
/// Sizes of a lent output: none, one octet, around the lengths of the four
/// fields (25, 26 and 31), and more.
const FIELD_SIZES: [u16; 10] = [0, 1, 24, 25, 26, 27, 30, 31, 40, 300];
/// Sizes of a scratch that is long enough, and of one that is not.
pub const LONG: [u16; 6] = [4096, 4096, 4096, 4096, 4097, 65_535];
pub const SHORT: [u16; 4] = [4095, 4095, 1, 0];
/// Bytes that are no answer's, or one over a limit.
pub const UNREADABLE: [&[u8]; 10] = [
    b"T",
    b"TX",
    b"TX\0",
    b"TX\0\0",
    b"TX\0\x01",
    b"XT\0\x01\0",
    b"TX\0\x03\x01a",
    b"TX\0\x02\x02a",
    b"TX\0\x03\x01ab",
    b"TX\0\x13\x12v=DMARC1; p=rejectTX\0\0",
];
/// A readable answer.
pub const RECORD: &[u8] = b"TX\0\x13\x12v=DMARC1; p=reject";

/// Identifiers that come in between, good and bad.
const IDENTIFIERS: [(u8, u8, &[u8]); 10] = [
    (1, 1, b"mail.example.com"),
    (1, 0, b"other.test."),
    (0, 1, b"example.com"),
    (0, 2, b"Mail.Other.test"),
    (0, 1, b"a..b"),
    (1, 1, b"."),
    (1, 2, b""),
    (2, 1, b"example.com"),
    (1, 3, b"example.com"),
    (255, 255, b"a..b"),
];

/// The calls of these messages, one message after the other, with refused calls
/// in between.
pub fn scrambled(plans: &[Plan]) -> Vec<Call> {
    let mut scrambler = Scrambler::new(Random::of(SEED, 0));
    scrambler.before_an_opening();
    for call in adding::calls() {
        scrambler.push(call);
    }
    scrambler.refused_identifiers();
    scrambler.at_the_limits();
    for plan in plans {
        scrambler.run(plan);
    }
    while scrambler.refuse_opening() {
        scrambler.push(Call::Next);
    }
    scrambler.made
}

/// A readable answer of so many octets and as many records as one may have: one
/// policy record, then other texts.
fn full_answer(octets: usize) -> Vec<u8> {
    let others = txt::MOST_RECORDS - 1;
    let size = octets / txt::MOST_RECORDS;
    let first = full_record(b"v=DMARC1; p=quarantine; x=", octets - others * size);
    let other = full_record(b"", size);
    [first, other.repeat(others)].concat()
}

/// A record of so many octets with a text of one string.
fn full_record(text: &[u8], octets: usize) -> Vec<u8> {
    let string = octets - 5;
    let mut record = b"TX\0".to_vec();
    record.extend([string as u8 + 1, string as u8]);
    record.extend(text);
    record.resize(octets, b'z');
    record
}

struct Scrambler {
    random: Random,
    book: Book,
    made: Vec<Call>,
    /// The refused openings that were not made yet.
    refused: Vec<OpenCall>,
    /// The name that was answered last.
    last: Vec<u8>,
    /// Names that were asked once, of this message and of others.
    old_names: Vec<Vec<u8>>,
    /// How often something comes in between, in percent.
    often: usize,
}

impl Scrambler {
    fn new(random: Random) -> Scrambler {
        Scrambler {
            random,
            book: Book::default(),
            made: Vec::new(),
            refused: refused::openings(),
            last: b"_dmarc.example.com".to_vec(),
            old_names: Vec::new(),
            often: OFTEN,
        }
    }

    /// Makes a call.
    fn push(&mut self, call: Call) {
        let mut lent = vec![FILL; call.lent()];
        call.make(&mut self.book, &mut lent);
        self.made.push(call);
    }

    fn push_answer(&mut self, name: &[u8], status: Status, bytes: &[u8], scratch: u16) {
        self.push(Call::Answer(AnswerCall {
            status,
            scratch,
            name: name.to_vec(),
            bytes: bytes.to_vec(),
        }));
    }

    /// Makes a refused opening, if there is one left.
    fn refuse_opening(&mut self) -> bool {
        let at = self.random.below(self.refused.len());
        if at >= self.refused.len() {
            return false;
        }
        let call = self.refused.swap_remove(at);
        self.push(Call::Open(call));
        true
    }

    /// An identifier that comes in between.
    fn identifier(&mut self) -> AddCall {
        let (kind, outcome, domain) = self.random.pick(&IDENTIFIERS);
        AddCall::new(kind, outcome, domain)
    }

    /// Adds an identifier, if it is refused.
    fn refuse_identifier(&mut self) {
        let given = self.identifier();
        if given.make(&mut self.book.clone()).is_err() {
            self.push(Call::Add(given));
        }
    }

    /// Calls where nothing was opened, and where an opening was refused.
    fn before_an_opening(&mut self) {
        for _ in 0..2 {
            self.push(Call::Next);
            self.push(Call::Result);
            self.push(Call::Field { size: 0 });
            self.push(Call::Field { size: 64 });
            self.push(Call::Finding);
            self.push_answer(b"_dmarc.example.com", Status::Records, RECORD, 4096);
            self.push_answer(b"", Status::Error, b"", 0);
            for (kind, outcome, domain) in IDENTIFIERS {
                self.push(Call::Add(AddCall::new(kind, outcome, domain)));
            }
            self.refuse_opening();
        }
        self.push(Call::Next);
    }

    /// Messages with an identifier that is refused, and then too late.
    fn refused_identifiers(&mut self) {
        for (accepted, given) in refused::identifiers() {
            self.push(Call::Open(OpenCall::of(b"other.test")));
            for given in accepted {
                self.push(Call::Add(given));
            }
            self.push(Call::Add(given.clone()));
            self.push(Call::Next);
            self.push(Call::Add(given));
        }
    }

    /// Answers at the limits of one answer, and just over them.
    fn at_the_limits(&mut self) {
        let name = b"_dmarc.example.com";
        self.push(Call::Open(OpenCall::of(b"example.com")));
        self.push(Call::Next);
        let most = txt::MOST_ANSWER_OCTETS;
        self.push_answer(name, Status::Records, &full_answer(most + 1), 65_535);
        self.push_answer(name, Status::Records, &full_answer(most), 4095);
        self.push_answer(name, Status::Records, &full_answer(most), 4096);
        self.push(Call::Finding);
        self.push(Call::Next);
        self.push(Call::Field { size: 0 });
        self.push(Call::Finding);
    }

    /// The opening of a message and its identifiers, with calls in between.
    fn open(&mut self, plan: &Plan) {
        self.push(Call::Open(plan.open.clone()));
        for given in &plan.adds {
            self.disturb_adding();
            self.push(Call::Add(given.clone()));
        }
    }

    /// One message from its opening to after its verdict.
    fn run(&mut self, plan: &Plan) {
        self.open(plan);
        let restart_at = self.random.percent(12).then(|| self.random.between(1, 4));
        let mut answered = 0;
        while self.book.result().is_err() {
            self.disturb();
            if Some(answered) == restart_at {
                answered += 1;
                self.open(plan);
            }
            match self.book.now_asked().map(<[u8]>::to_vec) {
                None => self.push(Call::Next),
                Some(name) => {
                    self.refuse_answers(&name);
                    self.answer(plan, &name);
                    answered += 1;
                }
            }
        }
        self.after_the_verdict();
    }

    /// How often something comes in between now, in percent.
    fn rate(&self) -> usize {
        match self.book.names().len() > MANY_NAMES {
            true => self.often.min(SELDOM),
            false => self.often,
        }
    }

    /// Calls that change nothing, or ask the next name.
    fn disturb(&mut self) {
        let rate = self.rate();
        while self.random.percent(rate) {
            match self.random.below(5) {
                0 => self.push(Call::Next),
                _ => self.change_nothing(),
            }
        }
    }

    /// Calls that change nothing, between two identifiers.
    fn disturb_adding(&mut self) {
        let rate = self.rate() * 2 / 3;
        while self.random.percent(rate) {
            match self.random.percent(30) {
                true => self.refuse_identifier(),
                false => self.change_nothing(),
            }
        }
    }

    fn change_nothing(&mut self) {
        match self.random.below(8) {
            0 => self.push(Call::Result),
            1 => self.push(Call::Finding),
            2 | 3 => {
                let size = self.random.pick(&FIELD_SIZES);
                self.push(Call::Field { size });
            }
            4 => {
                self.refuse_opening();
            }
            5 => self.refuse_identifier(),
            _ => self.answer_wrongly(),
        }
    }

    /// An answer for a name that is not asked now: whatever else is wrong, 5.
    fn answer_wrongly(&mut self) {
        let name = self.wrong_name();
        let status = [Status::Records, Status::None, Status::Error][self.random.below(3)];
        let bytes = match self.random.below(3) {
            0 => RECORD,
            1 => self.random.pick(&UNREADABLE),
            _ => b"",
        };
        let scratch = self.random.pick(&[4096, 4095, 0]);
        self.push_answer(&name, status, bytes, scratch);
    }

    /// An old name, or one that is near the one now asked, or near the next one if
    /// none is.
    fn wrong_name(&mut self) -> Vec<u8> {
        if let Some(name) = self.old_name() {
            return name;
        }
        let Some(asked) = self.book.now_asked() else {
            let next = self.book.names().pop();
            return next.map_or(self.last.clone(), |next| next.name);
        };
        let mut name = asked.to_vec();
        match self.random.below(7) {
            0 => name.extend(b".."),
            1 => name = name.split_off(7),
            2 => name.clear(),
            3 => {
                name.pop();
            }
            4 => {
                let at = self.random.below(name.len());
                // No letter becomes itself in the other case.
                name[at] ^= 1;
            }
            5 => name.insert(0, b'x'),
            _ if self.last != name => name = self.last.clone(),
            _ => name.clear(),
        }
        name
    }

    /// Refused answers for the name now asked: 6 before 10.
    fn refuse_answers(&mut self, name: &[u8]) {
        let rate = self.rate() / 2;
        if self.random.percent(rate) {
            let bytes = self.random.pick(&UNREADABLE);
            let scratch = self.random.pick(&[4096, 4095, 0]);
            self.push_answer(name, Status::Records, bytes, scratch);
        }
        if self.random.percent(rate) {
            let scratch = self.random.pick(&SHORT);
            self.push_answer(name, Status::Records, RECORD, scratch);
        }
        if self.random.percent(rate / 3) {
            let scratch = self.random.pick(&SHORT);
            let bytes = self.random.pick(&UNREADABLE);
            self.push_answer(name, Status::None, bytes, scratch);
        }
        if self.random.percent(rate / 8) {
            let records = b"TX\0\x02\x01a".repeat(17);
            self.push_answer(name, Status::Records, &records, 4096);
        }
    }

    /// The answer for the name now asked, in either case, at times with a final
    /// dot. Bytes that come with none or error are not read.
    fn answer(&mut self, plan: &Plan, name: &[u8]) {
        let (status, mut bytes) = plan.answer(name);
        if status != Status::Records && self.random.percent(30) {
            bytes = self.random.pick(&UNREADABLE).to_vec();
        }
        let given = match self.random.below(4) {
            0 => name.to_ascii_uppercase(),
            _ => name.to_vec(),
        };
        let given = dotted(&mut self.random, given, 20);
        let scratch = self.random.pick(&LONG);
        self.push_answer(&given, status, &bytes, scratch);
        self.last = name.to_vec();
        if self.random.percent(self.rate() / 4) {
            // The same answer again.
            self.push_answer(&given, status, &bytes, scratch);
        }
    }

    /// The verdict by both calls and what would be entered of it, each more than
    /// once, fields of several sizes, and an identifier that is too late.
    fn after_the_verdict(&mut self) {
        let twice = [Call::Next, Call::Result, Call::Finding];
        let mut calls = [twice.clone(), twice].concat();
        for _ in 0..self.random.between(2, 5) {
            let size = self.random.pick(&FIELD_SIZES);
            calls.push(Call::Field { size });
        }
        calls.push(Call::Answer(AnswerCall::none(&self.last)));
        calls.push(Call::Add(self.identifier()));
        self.random.shuffle(&mut calls);
        for call in calls {
            self.push(call);
            if self.random.percent(8) {
                self.refuse_opening();
            }
        }
    }
}
