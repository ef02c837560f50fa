//! Reading a report in parts.

use std::net::{IpAddr, Ipv6Addr};

use crate::calls;
use crate::numbers::{Disposition, Kind, Outcome};
use crate::raw;
use crate::refusal::Refusal;

/// A reader of the aggregate report that [`Report`](crate::Report) writes, in parts
/// cut anywhere: a value of 8,496 octets that can be copied and kept. The rows, the
/// refusal and its place are those of the uncut text. A program that has a
/// [`Read`](std::io::Read) may take [`ReceivedRows`](crate::ReceivedRows) instead.
///
/// ```no_run
/// use waslidhaj::{Fed, Reader, ReceivedRow};
///
/// /// The rows of a report that comes in parts.
/// fn rows(parts: &[&[u8]]) -> Result<Vec<ReceivedRow>, waslidhaj::Refusal> {
///     let (mut reader, mut rows) = (Reader::new(), Vec::new());
///     for part in parts {
///         let mut rest = *part;
///         while let Fed::Row { row, used } = reader.read(rest)? {
///             rows.push(row);
///             rest = &rest[used..];
///         }
///     }
///     // A text that is never ended is not known to be whole.
///     reader.end()?;
///     Ok(rows)
/// }
/// ```
#[derive(Clone, Debug, PartialEq, Eq)]
pub struct Reader {
    reader: raw::Reader,
}

/// What reading a part comes to.
#[derive(Clone, Debug, PartialEq, Eq)]
pub enum Fed {
    /// All of the part is used: go on with the next one, or declare the end.
    More,
    /// A record ended. Go on with the rest of the part.
    Row {
        /// Its row.
        row: ReceivedRow,
        /// How many octets of the part are used.
        used: usize,
    },
}

/// A row of a report that is read.
#[derive(Clone, Debug, PartialEq, Eq)]
pub struct ReceivedRow {
    /// Where the messages came from: 16 octets, IPv4 mapped.
    pub source: [u8; 16],
    /// How many messages.
    pub count: u32,
    /// What was done with them.
    pub disposition: Disposition,
    /// Whether DKIM aligned.
    pub dkim: bool,
    /// Whether SPF aligned.
    pub spf: bool,
    /// The author domain, as the report spells it.
    pub author: String,
    /// The identifiers, DKIM's before SPF's.
    pub identifiers: Vec<ReceivedIdentifier>,
}

/// An identifier of a row that is read.
#[derive(Clone, Debug, PartialEq, Eq)]
pub struct ReceivedIdentifier {
    /// SPF or DKIM.
    pub kind: Kind,
    /// Its outcome.
    pub outcome: Outcome,
    /// Its domain.
    pub domain: String,
    /// The selector of a DKIM signature; empty for SPF.
    pub selector: String,
}

impl Reader {
    /// A reader at the start of a report.
    pub fn new() -> Reader {
        Reader::from_raw(raw::Reader {
            state: calls::new_reader(),
            row: [0; raw::ROW_OCTETS],
        })
    }

    /// Reads a part, up to the end of its first record. Refused 20 (text outside the
    /// form), 21 (a begin, end or count over its width), at the octet's place counted
    /// from the start of the report; then every later part and the end get the same
    /// refusal.
    pub fn read(&mut self, part: impl AsRef<[u8]>) -> Result<Fed, Refusal> {
        let fed = calls::read(self.reader.state, part.as_ref(), &mut self.reader.row);
        self.reader.state = fed.state;
        match self.reader.received(fed.told) {
            Some(row) => Ok(Fed::Row {
                row: ReceivedRow::of(row, &self.reader),
                used: fed.used,
            }),
            None => go_on(fed.told).map(|()| Fed::More),
        }
    }

    /// Declares the end of the report. Refused 22 at its length where it ends early.
    pub fn end(&mut self) -> Result<(), Refusal> {
        let ended = calls::end(self.reader.state);
        self.reader.state = ended.state;
        go_on(ended.told)
    }

    /// The reader, as a program in C has it.
    pub fn raw(&self) -> &raw::Reader {
        &self.reader
    }

    /// A reader of these octets, whatever they are.
    pub fn from_raw(reader: raw::Reader) -> Reader {
        Reader { reader }
    }
}

impl Default for Reader {
    fn default() -> Reader {
        Reader::new()
    }
}

impl ReceivedRow {
    /// The source as an address; a mapped one is of IPv4.
    pub fn address(&self) -> IpAddr {
        Ipv6Addr::from(self.source).to_canonical()
    }

    /// The row that a reader has just handed out.
    fn of(row: raw::Received<'_>, reader: &raw::Reader) -> ReceivedRow {
        let identifiers = (0..row.identifiers).filter_map(|index| reader.identifier(index));
        ReceivedRow {
            source: row.source,
            count: row.count,
            disposition: Disposition::of(row.disposition),
            dkim: row.dkim != 0,
            spf: row.spf != 0,
            author: text(row.author),
            identifiers: identifiers.map(ReceivedIdentifier::of).collect(),
        }
    }
}

impl ReceivedIdentifier {
    fn of(own: raw::ReceivedIdentifier<'_>) -> ReceivedIdentifier {
        ReceivedIdentifier {
            kind: Kind::of(own.kind),
            outcome: Outcome::of(own.outcome),
            domain: text(own.domain),
            selector: text(own.selector),
        }
    }
}

/// Nothing where there is more to read or an end is accepted, or the refusal.
fn go_on(told: raw::Told) -> Result<(), Refusal> {
    match told.is(raw::READ_MORE) {
        true => Ok(()),
        false => Err(told.refusal().into()),
    }
}

/// A name that was read has plain octets alone.
fn text(octets: &[u8]) -> String {
    String::from_utf8_lossy(octets).into_owned()
}

#[cfg(test)]
mod tests {
    use super::*;

    /// A row laid out by hand, two identifiers in it, and another source before it.
    fn laid_out() -> raw::Reader {
        let mut row = [0; raw::ROW_OCTETS];
        let mut put = |at: usize, octets: &[u8]| row[at..at + octets.len()].copy_from_slice(octets);
        put(raw::ROW_SOURCE, &[7; 12]);
        put(raw::ROW_SOURCE + 12, &[192, 0, 2, 1]);
        put(raw::ROW_AUTHOR, b"example.com");
        let dkim = raw::ROW_IDENTIFIERS;
        let spf = dkim + raw::ROW_IDENTIFIER_OCTETS;
        for (begin, kind, outcome) in [(dkim, 1, 1), (spf, 0, 2)] {
            put(begin + raw::ROW_KIND, &[kind]);
            put(begin + raw::ROW_OUTCOME, &[outcome]);
            put(begin + raw::ROW_DOMAIN, b"mail.example.com");
            put(begin + raw::ROW_DOMAIN_LENGTH, &[16]);
            put(begin + raw::ROW_SELECTOR, b"s1");
            put(begin + raw::ROW_SELECTOR_LENGTH, &[2]);
        }
        let state = raw::ReaderState {
            kind: raw::ROW_IS_DOTTED,
            disposition: raw::ROW_REJECT,
            dkim: 1,
            author: 11,
            identifiers: 2,
            ..raw::ReaderState::default()
        };
        raw::Reader { state, row }
    }

    #[test]
    fn the_row_that_is_handed_out() {
        let identifier = |kind, outcome, selector: &str| ReceivedIdentifier {
            kind,
            outcome,
            domain: "mail.example.com".to_string(),
            selector: selector.to_string(),
        };
        let told = raw::Told {
            event: raw::READ_ROW.into(),
            count: 7,
            ..raw::Told::default()
        };
        let reader = laid_out();
        let row = reader.received(told).expect("a row");
        let row = ReceivedRow::of(row, &reader);
        assert_eq!(row.address(), IpAddr::from([192, 0, 2, 1]));
        let expected = ReceivedRow {
            source: crate::mapped([192, 0, 2, 1].into()),
            count: 7,
            disposition: Disposition::Reject,
            dkim: true,
            spf: false,
            author: "example.com".to_string(),
            identifiers: vec![
                identifier(Kind::Dkim, Outcome::Pass, "s1"),
                identifier(Kind::Spf, Outcome::TemporaryError, ""),
            ],
        };
        assert_eq!(row, expected);
    }
}
