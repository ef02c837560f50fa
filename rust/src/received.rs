//! The rows of a report that comes from anything that can be read.

use std::error::Error;
use std::fmt;
use std::io::{self, Read};

use crate::reader::{Fed, Reader, ReceivedRow};
use crate::refusal::Refusal;

/// The rows of a report, read as they are asked for: each is given when its record
/// ends. What is kept beside the [`Reader`] is one buffer of 8,192 octets, however
/// long the report is.
///
/// Rows that were given before an error stand. After an error, and after the last
/// row, there is nothing more. There is no end but that of the whole report: one
/// that ends early is refused 22.
///
/// ```no_run
/// use std::fs::File;
/// use waslidhaj::{ReadError, ReceivedRows};
///
/// fn main() -> Result<(), ReadError> {
///     let report = File::open("gate.example!example.com!1699920000!1700006399!r7.xml")?;
///     for row in ReceivedRows::new(report) {
///         let row = row?;
///         if !row.dkim && !row.spf {
///             println!("{} messages from {}", row.count, row.address());
///         }
///     }
///     Ok(())
/// }
/// ```
#[derive(Debug)]
pub struct ReceivedRows<R> {
    source: R,
    reader: Reader,
    buffer: Box<[u8]>,
    /// The octets of the buffer that are still to be read.
    begin: usize,
    end: usize,
    is_over: bool,
}

/// Why no more rows are given.
#[derive(Debug)]
pub enum ReadError {
    /// The text is refused: 20, 21, 22.
    Refused(Refusal),
    /// The source could not be read.
    Io(io::Error),
}

const BUFFER_OCTETS: usize = 8192;

impl<R: Read> ReceivedRows<R> {
    /// The rows of the report that this source has, from its start to its end.
    pub fn new(source: R) -> ReceivedRows<R> {
        ReceivedRows {
            source,
            reader: Reader::new(),
            buffer: vec![0; BUFFER_OCTETS].into_boxed_slice(),
            begin: 0,
            end: 0,
            is_over: false,
        }
    }

    /// The next row, or nothing at the end that was declared.
    fn row(&mut self) -> Result<Option<ReceivedRow>, ReadError> {
        loop {
            if self.begin == self.end && !self.fill()? {
                self.reader.end()?;
                return Ok(None);
            }
            match self.reader.read(&self.buffer[self.begin..self.end])? {
                Fed::More => self.begin = self.end,
                Fed::Row { row, used } => {
                    self.begin = self.end.min(self.begin + used);
                    return Ok(Some(row));
                }
            }
        }
    }

    /// Fills the buffer with some octets, unless the source is at its end.
    fn fill(&mut self) -> io::Result<bool> {
        let read = loop {
            match self.source.read(&mut self.buffer) {
                Err(error) if error.kind() == io::ErrorKind::Interrupted => continue,
                read => break read?,
            }
        };
        (self.begin, self.end) = (0, read.min(self.buffer.len()));
        Ok(self.end > 0)
    }
}

impl<R: Read> Iterator for ReceivedRows<R> {
    type Item = Result<ReceivedRow, ReadError>;

    fn next(&mut self) -> Option<Self::Item> {
        if self.is_over {
            return None;
        }
        let row = self.row().transpose();
        self.is_over = !matches!(row, Some(Ok(_)));
        row
    }
}

impl<R: Read> std::iter::FusedIterator for ReceivedRows<R> {}

impl From<Refusal> for ReadError {
    fn from(refusal: Refusal) -> ReadError {
        ReadError::Refused(refusal)
    }
}

impl From<io::Error> for ReadError {
    fn from(error: io::Error) -> ReadError {
        ReadError::Io(error)
    }
}

impl fmt::Display for ReadError {
    fn fmt(&self, out: &mut fmt::Formatter<'_>) -> fmt::Result {
        match self {
            ReadError::Refused(refusal) => write!(out, "{refusal}: {}", refusal.meaning()),
            ReadError::Io(error) => error.fmt(out),
        }
    }
}

impl Error for ReadError {}

#[cfg(test)]
mod tests {
    use super::*;

    #[test]
    fn errors_in_words() {
        let refusal = Refusal {
            number: 22,
            place: 879,
        };
        let error = ReadError::from(refusal);
        let said = "refused 22 at 879: the report ends early";
        assert_eq!(error.to_string(), said);
        let error = ReadError::from(io::Error::other("no more"));
        assert_eq!(error.to_string(), "no more");
    }
}
