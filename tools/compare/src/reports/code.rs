//! The code that is held to the second evaluator.

mod gathered;
mod safe;

use std::fmt;

use super::day::Subject;
use crate::alike::in_both;
use crate::histories::{self, Proved};
use evaluator::refusal::Refusal;
use records::code::{accepted, RecordNumbers};
use sheets::programs::lent::written_words;
use waslidhaj::raw::{List, Row, Written};
use waslidhaj::{calls, Lists, Reporter};

/// What a writer gives: the octets written, or the refusal.
#[derive(Clone, Copy, Debug, PartialEq, Eq)]
pub struct Told(pub Result<usize, Refusal>);

impl fmt::Display for Told {
    fn fmt(&self, out: &mut fmt::Formatter<'_>) -> fmt::Result {
        out.write_str(&written_words(self.0))
    }
}

impl Told {
    /// The error is of a length where it is refused.
    fn of(written: Written) -> Result<Told, String> {
        let told = accepted(written.refusal).map(|()| written.length);
        match told.is_err() && written.length != 0 {
            true => Err(format!("a length where it is refused: {written:?}")),
            false => Ok(Told(told)),
        }
    }
}

/// What a report is written from.
#[derive(Clone, Copy)]
pub struct Asked<'a> {
    pub list: List,
    pub rows: &'a [Row],
    pub lists: Lists<'a>,
    pub numbers: RecordNumbers,
    pub reporter: Reporter<'a>,
}

/// Days by their functions; the error is of what no call may give.
pub trait Code: histories::code::Code {
    fn report(&self, asked: &Asked<'_>, out: &mut [u8]) -> Result<Told, String>;
    fn subject(&self, subject: &Subject, out: &mut [u8]) -> Result<Told, String>;
}

/// The proved code: each call by the C interface, and again by the safe one.
impl Code for Proved {
    fn report(&self, asked: &Asked<'_>, out: &mut [u8]) -> Result<Told, String> {
        let mut own = out.to_vec();
        let told = Told::of(in_c(asked, out))?;
        let safe = safe::report(asked, &mut own);
        let told = in_both(told, safe, own == out)?;
        safe::same_text(asked, told, out)?;
        gathered::check(asked)?;
        Ok(told)
    }

    fn subject(&self, subject: &Subject, out: &mut [u8]) -> Result<Told, String> {
        let mut own = out.to_vec();
        let Subject {
            receiver,
            domain,
            id,
        } = subject;
        let told = Told::of(calls::subject(receiver, domain, id, out))?;
        let safe = safe::subject(subject, &mut own);
        in_both(told, safe, own == out)
    }
}

/// A report by the C interface.
pub fn in_c(asked: &Asked<'_>, out: &mut [u8]) -> Written {
    let gathered = calls::gather(asked.rows);
    let Asked {
        list,
        numbers,
        lists,
        reporter,
        ..
    } = *asked;
    calls::report(list, gathered, numbers, lists, reporter, out)
}
