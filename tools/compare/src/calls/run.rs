//! The code and the book at the same place of a list of calls.

use super::code::Calls;
use super::tally::Tally;
use crate::alike::alike;
use evaluator::book::{Book, SCRATCH_OCTETS};
use sheets::programs::calls::{AnswerCall, Call, Told};

/// Of so many calls with lent memory one is made before with too little of it.
const SHORT_EVERY: u64 = 8;

/// The code and the book after the same calls.
pub struct Run<C> {
    code: C,
    book: Book,
    pub tally: Tally,
    /// The calls from the accepted opening before the last one on.
    calls: Vec<Call>,
    /// Where the last accepted opening stands among them.
    opened: usize,
    /// How many calls had lent memory.
    lent: u64,
}

impl<C: Calls> Run<C> {
    pub fn new(code: C) -> Run<C> {
        Run {
            code,
            book: Book::default(),
            tally: Tally::default(),
            calls: Vec::new(),
            opened: 0,
            lent: 0,
        }
    }

    /// Makes a call by both, and gives what both give; the error has the calls up
    /// to the fault.
    pub fn step(&mut self, call: &Call) -> Result<Told, String> {
        if let Some(short) = self.short_of(call) {
            self.made(&short)?;
        }
        self.made(call)
    }

    /// All that comes after the calls so far, where no name has any records; gives
    /// the names that were asked.
    pub fn finish(&mut self) -> Result<Vec<Vec<u8>>, String> {
        let mut names = Vec::new();
        while let Told::Ask(name) = self.step(&Call::Next)? {
            self.step(&Call::Answer(AnswerCall::none(&name)))?;
            names.push(name);
        }
        for call in [Call::Result, Call::Field { size: 64 }, Call::Finding] {
            self.step(&call)?;
        }
        Ok(names)
    }

    fn made(&mut self, call: &Call) -> Result<Told, String> {
        self.calls.push(call.clone());
        let told = self.both(call).map_err(|what| self.report(&what))?;
        self.tally.add(call, &told);
        if matches!(call, Call::Open(_)) && told == Told::Accepted {
            self.calls.drain(..self.opened);
            self.opened = self.calls.len() - 1;
        }
        Ok(told)
    }

    /// At times the same call with one octet too few, where it would be accepted.
    fn short_of(&mut self, call: &Call) -> Option<Call> {
        let needed = match call {
            Call::Answer(_) => SCRATCH_OCTETS,
            Call::Field { .. } => self.book.field(&mut [0; 64]).ok()?,
            _ => return None,
        };
        self.lent += 1;
        let due = self.lent.is_multiple_of(SHORT_EVERY) && call.lent() >= needed;
        let size = u16::try_from(needed - 1).ok().filter(|_| due)?;
        Some(match call {
            Call::Answer(given) => Call::Answer(AnswerCall {
                scratch: size,
                ..given.clone()
            }),
            _ => Call::Field { size },
        })
    }

    fn both(&mut self, call: &Call) -> Result<Told, String> {
        let before = self.code.state();
        let code = |lent: &mut [u8]| self.code.make(call, lent);
        let book = |lent: &mut [u8]| call.make(&mut self.book, lent);
        let (told, _) = alike(call.lent(), code, book)?;
        if matches!(told, Told::Refused(_)) && self.code.state() != before {
            return Err(format!("{told}, and yet the evaluation was changed"));
        }
        Ok(told)
    }

    fn report(&self, what: &str) -> String {
        let lines: Vec<String> = self.calls.iter().map(Call::to_string).collect();
        format!("{what}\n-- the calls\n{}\n", lines.join("\n"))
    }
}
