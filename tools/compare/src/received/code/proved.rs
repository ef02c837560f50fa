//! The proved reader, in turn by the C interface and by the safe one.

use std::cell::Cell;

use super::{Code, Row, Step, Told};
use crate::beside::Member;
use crate::calls::safe::refusal;
use records::code::accepted;
use waslidhaj::raw::{self, READ_MORE, READ_REFUSED, READ_ROW};
use waslidhaj::{calls, Fed, Reader, ReceivedIdentifier, ReceivedRow};

#[derive(Default)]
pub struct Proved {
    /// Whether the next reader is one in C.
    in_c: Cell<bool>,
}

pub enum State {
    InC(raw::Reader),
    Safe(Reader),
}

impl Code for Proved {
    type State = State;

    fn start(&self) -> State {
        let safe = Reader::new();
        match self.in_c.replace(!self.in_c.get()) {
            true => State::InC(*safe.raw()),
            false => State::Safe(safe),
        }
    }

    fn step(&self, state: &mut State, part: &[u8]) -> Result<Step, String> {
        match state {
            State::InC(reader) => step_in_c(reader, part),
            State::Safe(reader) => Ok(safe_step(reader.read(part), part.len())),
        }
    }

    fn end(&self, state: &mut State) -> Result<Told, String> {
        match state {
            State::InC(reader) => {
                let ended = calls::end(reader.state);
                reader.state = ended.state;
                told(reader, ended.told)
            }
            State::Safe(reader) => Ok(Told::of_end(reader.end().map_err(refusal))),
        }
    }
}

/// A part of which all is used where no row is handed out.
fn step_in_c(reader: &mut raw::Reader, part: &[u8]) -> Result<Step, String> {
    let fed = calls::read(reader.state, part, &mut reader.row);
    reader.state = fed.state;
    let (read, told) = (fed.used, told(reader, fed.told)?);
    match read == part.len() || read < part.len() && matches!(told, Told::Row(_)) {
        true => Ok(Step { read, told }),
        false => Err(format!("{read} of {} octets are used: {told}", part.len())),
    }
}

/// What there is to tell; the error is of what does not belong to its event.
fn told(reader: &raw::Reader, told: raw::Told) -> Result<Told, String> {
    let known = match (told.number, told.place, told.count) {
        (0, 0, 0) if told.is(READ_MORE) => Some(Told::More),
        (0, 0, 1..) if told.is(READ_ROW) => reader.received(told).map(|own| row(&own, reader)),
        (1.., _, 0) if told.is(READ_REFUSED) => accepted(told.refusal()).err().map(Told::Refused),
        _ => None,
    };
    known.ok_or_else(|| format!("no call tells {told:?}"))
}

fn row(own: &raw::Received<'_>, reader: &raw::Reader) -> Told {
    let member = |own: raw::ReceivedIdentifier<'_>| Member {
        kind: own.kind,
        outcome: own.outcome,
        selector: own.selector.to_vec(),
        domain: own.domain.to_vec(),
    };
    let identifiers = (0..own.identifiers).filter_map(|index| reader.identifier(index));
    Told::Row(Box::new(Row {
        source: own.source,
        count: own.count,
        disposition: own.disposition,
        dkim: own.dkim != 0,
        spf: own.spf != 0,
        author: own.author.to_vec(),
        identifiers: identifiers.map(member).collect(),
    }))
}

fn safe_step(fed: Result<Fed, waslidhaj::Refusal>, part: usize) -> Step {
    let (read, told) = match fed {
        Ok(Fed::Row { row, used }) => (used, Told::Row(Box::new(safe_row(row)))),
        Ok(Fed::More) => (part, Told::More),
        Err(own) => (part, Told::Refused(refusal(own))),
    };
    Step { read, told }
}

fn safe_row(own: ReceivedRow) -> Row {
    let member = |own: ReceivedIdentifier| Member {
        kind: own.kind as u8,
        outcome: own.outcome as u8,
        selector: own.selector.into_bytes(),
        domain: own.domain.into_bytes(),
    };
    Row {
        source: own.source,
        count: own.count,
        disposition: own.disposition as u8,
        dkim: own.dkim,
        spf: own.spf,
        author: own.author.into_bytes(),
        identifiers: own.identifiers.into_iter().map(member).collect(),
    }
}
