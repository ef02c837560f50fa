//! A day's rows, told.

use crate::code::Code;
use crate::reading;
use crate::told::Told;
use sheets::day::{csv, json, table, Day};
use sheets::handed::in_file;

/// In which form the rows are told.
#[derive(Clone, Copy, Debug, PartialEq, Eq)]
pub enum DayForm {
    Plain,
    Csv,
    /// As one JSON object.
    Json,
}

impl DayForm {
    /// The form of a word.
    pub fn read(word: &[u8]) -> Option<DayForm> {
        match word {
            b"plain" => Some(DayForm::Plain),
            b"csv" => Some(DayForm::Csv),
            b"json" => Some(DayForm::Json),
            _ => None,
        }
    }
}

/// Reads a day under a name. Its record is one that the proved code reads, and the
/// second evaluator too; the error has the name, and the line of a mistake.
pub fn read(code: &impl Code, name: &str, octets: &[u8]) -> Result<Day, String> {
    let day = Day::read(name, octets)?;
    if let Some(record) = &day.record {
        let read = reading::record(code, &record.value).map(drop);
        read.map_err(|why| in_file(name, &format!("line {}: {why}", record.line)))?;
    }
    Ok(day)
}

/// The rows, most messages first, and their totals; of CSV the rows alone.
pub fn told(form: DayForm, day: &Day) -> Told {
    let printed = match form {
        DayForm::Plain => table(day),
        DayForm::Csv => csv(day),
        DayForm::Json => format!("{}\n", json(day)),
    };
    Told {
        printed: printed.into_bytes(),
        ..Told::default()
    }
}
