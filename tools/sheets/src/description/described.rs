//! What a description comes to: its sheet with the line of each record, or a
//! mistake.

use std::fmt;

/// The sheet of a description.
#[derive(Clone, Debug, PartialEq, Eq)]
pub struct Described {
    pub sheet: Vec<u8>,
    /// Where each record begins on the sheet, and its line.
    pub lines: Vec<(usize, usize)>,
}

impl Described {
    /// The line of the record at a place of the sheet.
    pub fn line(&self, place: usize) -> Option<usize> {
        let mut lines = self.lines.iter().rev();
        lines
            .find(|(begin, _)| *begin <= place)
            .map(|(_, line)| *line)
    }
}

/// What is wrong with a description, and on which line.
#[derive(Clone, Debug, PartialEq, Eq)]
pub struct Mistake {
    pub line: usize,
    pub reason: String,
}

impl fmt::Display for Mistake {
    fn fmt(&self, out: &mut fmt::Formatter<'_>) -> fmt::Result {
        write!(out, "line {}: {}", self.line, self.reason)
    }
}
