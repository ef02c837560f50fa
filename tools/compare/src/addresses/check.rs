//! The code and the book at the same place of a list of calls.

use super::code::Checks;
use super::tally::Tally;
use crate::alike::alike;
use evaluator::address::book::AddressBook;
use evaluator::address::entry::{host, hosted};
use evaluator::address::{Outcome, Verdict, MOST_NAMES};
use evaluator::book::SCRATCH_OCTETS;
use sheets::programs::calls::AnswerCall;
use sheets::programs::checks::{Call, Told};

/// Of so many answers one is made before with too little scratch.
const SHORT_EVERY: u64 = 8;

/// The code and the book after the same calls.
pub struct Run<C> {
    code: C,
    book: AddressBook,
    pub tally: Tally,
    /// The calls from the accepted start before the last one on.
    calls: Vec<Call>,
    /// Where the last accepted start stands among them.
    started: usize,
    /// How many answers there were.
    answers: u64,
    /// Of the running check: its entry, the names asked one by one, and the scratch
    /// as the last accepted answer left it.
    entry: Vec<u8>,
    names: Vec<Vec<u8>>,
    scratch: Vec<u8>,
}

impl<C: Checks> Run<C> {
    pub fn new(code: C) -> Run<C> {
        Run {
            code,
            book: AddressBook::default(),
            tally: Tally::default(),
            calls: Vec::new(),
            started: 0,
            answers: 0,
            entry: Vec::new(),
            names: Vec::new(),
            scratch: Vec::new(),
        }
    }

    /// Makes a call by both, and gives what both give; the error has the calls up
    /// to the fault.
    pub fn step(&mut self, call: &Call) -> Result<Told, String> {
        if let Some(short) = self.short_of(call) {
            self.made(&short)?;
        }
        self.made(call)
    }

    fn made(&mut self, call: &Call) -> Result<Told, String> {
        self.calls.push(call.clone());
        let made = self.both(call);
        let (told, lent) = made.map_err(|what| self.report(&what))?;
        self.tally.add(call, &told);
        let followed = self.follow(call, &told, lent);
        followed.map_err(|what| self.report(&what))?;
        Ok(told)
    }

    /// At times the same answer with one octet of scratch too few.
    fn short_of(&mut self, call: &Call) -> Option<Call> {
        let Call::Answer(given) = call else {
            return None;
        };
        self.answers += 1;
        let due = self.answers.is_multiple_of(SHORT_EVERY) && call.lent() >= SCRATCH_OCTETS;
        let scratch = u16::try_from(SCRATCH_OCTETS - 1).ok().filter(|_| due)?;
        Some(Call::Answer(AnswerCall {
            scratch,
            ..given.clone()
        }))
    }

    /// What both give, and the lent memory as both leave it.
    fn both(&mut self, call: &Call) -> Result<(Told, Vec<u8>), String> {
        let before = self.code.state();
        let code = |lent: &mut [u8]| self.code.make(call, lent);
        let book = |lent: &mut [u8]| call.make(&mut self.book, lent);
        let (told, lent) = alike(call.lent(), code, book)?;
        if matches!(told, Told::Refused(_)) && self.code.state() != before {
            return Err(format!("{told}, and yet the check was changed"));
        }
        Ok((told, lent))
    }

    /// What must hold of the calls whatever the book says: names are "each asked
    /// once", "at most 17 in all", the count is their number, and what replaces the
    /// address is of the first host.
    fn follow(&mut self, call: &Call, told: &Told, lent: Vec<u8>) -> Result<(), String> {
        match (call, told) {
            (Call::Start(given), Told::Accepted) => {
                self.calls.drain(..self.started);
                self.started = self.calls.len() - 1;
                self.entry = given.entry.clone();
                self.names.clear();
                self.scratch.clear();
                Ok(())
            }
            (Call::Answer(_), Told::Accepted) => {
                self.scratch = lent;
                Ok(())
            }
            (_, Told::Ask(name)) => self.asked(name),
            (_, Told::Verdict(verdict)) => self.judged(verdict),
            _ => Ok(()),
        }
    }

    fn asked(&mut self, name: &[u8]) -> Result<(), String> {
        // A name may be given again before its answer.
        if self.names.last().is_some_and(|last| last == name) {
            return Ok(());
        }
        if self.names.iter().any(|known| known == name) {
            return Err("a name is asked a second time".to_string());
        }
        self.names.push(name.to_vec());
        match self.names.len() > MOST_NAMES {
            true => Err(format!("more than {MOST_NAMES} names are asked")),
            false => Ok(()),
        }
    }

    fn judged(&self, verdict: &Verdict) -> Result<(), String> {
        if verdict.asked != self.names.len() {
            return Err(format!("{} names were asked", self.names.len()));
        }
        let Outcome::Replaced { begin, length } = verdict.outcome else {
            return Ok(());
        };
        let text = self.scratch.get(begin..begin + length);
        let hosted = hosted(text.unwrap_or_default());
        let first = host(&self.entry);
        let same = hosted.iter().all(|own| Ok(&own.host) == first.as_ref());
        match hosted.is_empty() || !same {
            true => Err("what replaces the address is not of its host".to_string()),
            false => Ok(()),
        }
    }

    fn report(&self, what: &str) -> String {
        let lines: Vec<String> = self.calls.iter().map(Call::to_string).collect();
        format!("{what}\n-- the calls\n{}\n", lines.join("\n"))
    }
}
