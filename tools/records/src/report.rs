//! The aggregate report of a day (Ask 9 of document 02), its file name and the
//! subject of its mail, as the proved code writes them.

mod code;

use crate::told::{Told, REFUSED};
use evaluator::refusal::Refusal;
use sheets::day::{notes, Complete, Day};
use sheets::policy_words::PolicyRecord;

/// What is printed of a report.
#[derive(Clone, Copy, Debug, PartialEq, Eq)]
pub enum ReportForm {
    /// The report itself.
    Plain,
    /// Its file name.
    Name,
    /// The subject of its mail.
    Subject,
}

impl ReportForm {
    /// The form of a word.
    pub fn read(word: &[u8]) -> Option<ReportForm> {
        match word {
            b"plain" => Some(ReportForm::Plain),
            b"name" => Some(ReportForm::Name),
            b"subject" => Some(ReportForm::Subject),
            _ => None,
        }
    }
}

/// A report, its file name and the subject of its mail.
#[derive(Clone, Debug, PartialEq, Eq)]
pub struct Written {
    pub report: Vec<u8>,
    pub name: Vec<u8>,
    pub subject: Vec<u8>,
}

/// What the proved code writes of a day that was read. All three are written, or it
/// is refused; the error names what the description lacks.
pub fn written(day: &Day) -> Result<Result<Written, Refusal>, String> {
    code::written(&day.complete()?)
}

/// All that is said of a report.
pub fn told(form: ReportForm, day: &Day) -> Result<Told, String> {
    let complete = day.complete()?;
    Ok(match code::written(&complete)? {
        Err(refusal) => refused(&complete, refusal),
        Ok(written) => match form {
            ReportForm::Plain => Told {
                notes: beside(&complete, &written),
                printed: written.report,
                ..Told::default()
            },
            ReportForm::Name => line(written.name),
            ReportForm::Subject => line(written.subject),
        },
    })
}

fn line(mut text: Vec<u8>) -> Told {
    text.push(b'\n');
    Told {
        printed: text,
        ..Told::default()
    }
}

/// The refusal, and the lines that it is about.
fn refused(day: &Complete, refusal: Refusal) -> Told {
    let mut notes = notes(day, refusal);
    if notes.is_empty() {
        let (number, place) = (refusal.number, refusal.place);
        let meaning = waslidhaj::Refusal { number, place }.meaning();
        notes.push(format!("{}: refused {number}: {meaning}", day.name));
    }
    Told {
        printed: format!("{refusal}\n").into_bytes(),
        notes,
        status: REFUSED,
    }
}

/// What is said beside a report.
fn beside(day: &Complete, written: &Written) -> Vec<String> {
    let name = String::from_utf8_lossy(&written.name);
    let subject = String::from_utf8_lossy(&written.subject);
    let mut notes = vec![format!("file name: {name}"), format!("subject: {subject}")];
    let record = PolicyRecord::read(&day.record.value);
    if record.is_ok_and(|own| own.settings.usable().is_none()) {
        let (file, line) = (day.name, day.record.line);
        let so = "so the report has none for p, sp and np";
        notes.push(format!(
            "{file}: line {line}: the record is not usable, {so}"
        ));
    }
    notes
}
