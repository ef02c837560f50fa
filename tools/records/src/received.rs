//! Aggregate reports that were received (Ask 10 of document 02), read by the proved
//! code as they come, and told. No report is held in memory: of each there are its
//! rows, 256 at the most, and what stands around a refusal.

mod code;
mod kept;
mod next;
mod policy;
mod source;

pub use code::read;
pub use kept::Kept;
pub use source::open;

use crate::day::DayForm;
use crate::told::{Told, REFUSED};
use sheets::received::{csv, json, notes, table, Received};

/// What standard input is called in words.
const INPUT: &[u8] = b"-";

/// Reads the reports of these files, `-` for standard input; the error has the name
/// of the one that cannot be read.
pub fn read_all(files: &[Vec<u8>]) -> Result<Vec<Received>, String> {
    let read_one = |file: &Vec<u8>| match file.as_slice() {
        INPUT => read("standard input", std::io::stdin().lock()),
        file => read(&String::from_utf8_lossy(file), open(file)?),
    };
    files.iter().map(read_one).collect()
}

/// What failed and from where, totals by policy and by author domain and all rows; of
/// CSV the rows alone. A refusal is said beside it, with the rows before it told.
pub fn told(form: DayForm, reports: &[Received]) -> Told {
    let printed = match form {
        DayForm::Plain => table(reports),
        DayForm::Csv => csv(reports),
        DayForm::Json => format!("{}\n", json(reports)),
    };
    let is_refused = reports.iter().any(|report| report.refused.is_some());
    Told {
        printed: printed.into_bytes(),
        notes: notes(reports),
        status: if is_refused { REFUSED } else { 0 },
    }
}
