//! The proved calls that read a report.

use std::io::{self, Read};

use super::next::next;
use super::policy::PolicyDomain;
use super::Kept;
use evaluator::refusal::Refusal;
use sheets::day::{DayRow, RowIdentifier};
use sheets::handed::in_file;
use sheets::received::{Received, Refused};
use waslidhaj::{Fed, Reader, ReceivedIdentifier, ReceivedRow};

const BUFFER_OCTETS: usize = 8192;

/// Reads a report under a name, to its end or its refusal; the error is of a source
/// that cannot be read.
pub fn read(name: &str, source: impl Read) -> Result<Received, String> {
    let (mut kept, mut buffer) = (Kept::new(source), [0; BUFFER_OCTETS]);
    let mut open = Open::default();
    let stopped = loop {
        let part = some(&mut kept, &mut buffer);
        match part.map_err(|error| in_file(name, &error.to_string()))? {
            [] => break open.end(),
            part => match open.part(part) {
                None => {}
                stopped => break stopped,
            },
        }
    };
    Ok(Received {
        name: name.to_string(),
        policy: open.policy.whole(),
        rows: open.rows,
        refused: stopped.map(|stopped| refused(&stopped, &kept)),
    })
}

/// Some octets of a source, or none at its end.
fn some<'b>(source: &mut impl Read, buffer: &'b mut [u8]) -> io::Result<&'b [u8]> {
    let count = loop {
        match source.read(buffer) {
            Err(error) if error.kind() == io::ErrorKind::Interrupted => continue,
            read => break read?,
        }
    };
    Ok(buffer.get(..count).unwrap_or_default())
}

/// A report of which some parts were read.
#[derive(Default)]
struct Open {
    reader: Reader,
    policy: PolicyDomain,
    rows: Vec<DayRow>,
    /// Octets that were read.
    place: usize,
}

/// A refusal, and the reader at its place.
struct Stopped {
    refusal: Refusal,
    reader: Reader,
}

impl Open {
    /// Reads a part to its end.
    fn part(&mut self, part: &[u8]) -> Option<Stopped> {
        let mut rest = part;
        loop {
            let before = self.reader.clone();
            match self.reader.read(rest) {
                Ok(Fed::More) => {
                    self.policy.take(rest);
                    self.place += rest.len();
                    return None;
                }
                Ok(Fed::Row { row, used }) => {
                    self.rows.push(day_row(row));
                    self.policy.take(rest.get(..used).unwrap_or_default());
                    self.place += used;
                    rest = rest.get(used..).unwrap_or_default();
                }
                Err(own) => {
                    let good = rest.get(..own.place.saturating_sub(self.place));
                    let good = good.unwrap_or_default();
                    self.policy.take(good);
                    return Some(stopped(own, before, good));
                }
            }
        }
    }

    fn end(&mut self) -> Option<Stopped> {
        let before = self.reader.clone();
        let refusal = self.reader.end().err()?;
        Some(stopped(refusal, before, b""))
    }
}

/// A refusal behind octets that are good.
fn stopped(own: waslidhaj::Refusal, mut reader: Reader, good: &[u8]) -> Stopped {
    // What is not refused has no end of a record in it.
    let _ = reader.read(good);
    let refusal = Refusal::new(own.number, own.place);
    Stopped { refusal, reader }
}

fn refused<R: Read>(stopped: &Stopped, kept: &Kept<R>) -> Refused {
    let (before, after) = kept.around(stopped.refusal.place);
    Refused {
        refusal: stopped.refusal,
        before: before.to_vec(),
        after: after.to_vec(),
        next: next(&stopped.reader),
    }
}

fn day_row(own: ReceivedRow) -> DayRow {
    DayRow {
        line: 0,
        source: own.address(),
        count: own.count,
        disposition: own.disposition as u8,
        dkim: own.dkim,
        spf: own.spf,
        author: own.author.into_bytes(),
        identifiers: own.identifiers.into_iter().map(row_identifier).collect(),
    }
}

fn row_identifier(own: ReceivedIdentifier) -> RowIdentifier {
    RowIdentifier {
        line: 0,
        kind: own.kind as u8,
        outcome: own.outcome as u8,
        domain: own.domain.into_bytes(),
        selector: own.selector.into_bytes(),
    }
}
