//! Writes a policy record from its tags, says what a policy record sets, what an
//! Identity-Alignment field names, and whether a report address agreed; tells a day's
//! rows, writes their aggregate report, and tells reports that were received. The
//! octets are the proved code's, the words the second evaluator's once both agree.

#![forbid(unsafe_code)]

use std::os::unix::ffi::OsStringExt;
use std::process::ExitCode;

use records::address::{self, Form};
use records::code::Proved;
use records::day::{self, DayForm};
use records::field::code::proved;
use records::report::{self, ReportForm};
use records::told::{Told, REFUSED};
use records::{field, reading, received, writing};
use sheets::address::AddressHanded;
use sheets::command::{ended, input, output};
use sheets::day::{Day, MOST_DAY_OCTETS};
use sheets::handed;

const USAGE: &str = "usage:
  dmarc-records write TAG=VALUE...
  dmarc-records read < text
  dmarc-records field < text
  dmarc-records field-json < text
  dmarc-records address FORM DOMAIN ENTRY
  dmarc-records address FORM DOMAIN ENTRY NAME < answers
  dmarc-records day FORM NAME < day
  dmarc-records report FORM NAME < day
  dmarc-records received FORM FILE...
FORM is plain, explain, json or next; of a day plain, csv or json, of a report
plain, name or subject. NAME is what the input is called in messages. An address
ends with 20 not known, 21 no, 22 inside, 23 confirmed or 24 replaced, with 3 if
it is refused, and with 0 if a next name is printed. A report ends with 3 if it is
refused. Of reports received FORM is as of a day; a FILE is a report, by zcat if it
ends in .gz, - is standard input, and they end with 3 if one is refused.";

/// More octets than a field is read of.
const FIELD_OCTETS: u64 = 1 << 20;

fn main() -> ExitCode {
    let words = std::env::args_os().skip(1).map(OsStringExt::into_vec);
    let words: Vec<Vec<u8>> = words.collect();
    let command = words.split_first();
    match command.map(|(first, rest)| (first.as_slice(), rest)) {
        Some((b"write", tags)) => ended(write(tags)),
        Some((b"read", [])) => ended(read()),
        Some((b"field", [])) => read_field(field_lines),
        Some((b"field-json", [])) => read_field(field_json),
        Some((b"address", [form, policy, entry])) => tell(checked(form, policy, entry, None)),
        Some((b"address", [form, policy, entry, name])) => {
            tell(checked(form, policy, entry, Some(name)))
        }
        Some((b"day", [form, name])) => tell(rows(form, name)),
        Some((b"report", [form, name])) => tell(reported(form, name)),
        Some((b"received", [form, files @ ..])) if !files.is_empty() => {
            tell(received_rows(form, files))
        }
        _ => ended(Err(USAGE.to_string())),
    }
}

/// What is told of a field that comes in, and the exit status: a refusal has its own.
fn read_field(tell: impl Fn(&[u8]) -> Result<(), String>) -> ExitCode {
    let text = match input(FIELD_OCTETS) {
        Ok(text) => text,
        Err(reason) => return ended(Err(reason)),
    };
    let told = tell(&text);
    match field::refused(proved, &text) {
        Some(_) if told.is_ok() => ExitCode::from(REFUSED),
        _ => ended(told),
    }
}

/// The methods that a field names; refused, `refused N at P`, and the rest on
/// standard error.
fn field_lines(text: &[u8]) -> Result<(), String> {
    match (field::lines(proved, text), field::refused(proved, text)) {
        (Err(reason), Some(refusal)) => {
            let why = reason.strip_prefix(&format!("{refusal}: "));
            eprintln!("{}", why.unwrap_or(&reason));
            output(format!("{refusal}\n").as_bytes())
        }
        (lines, _) => output((lines?.join("\n") + "\n").as_bytes()),
    }
}

fn field_json(text: &[u8]) -> Result<(), String> {
    let said = field::json(proved, text)?;
    output(format!("{said}\n").as_bytes())
}

/// Prints what is told, says what is said beside it, and ends with its status.
fn tell(told: Result<Told, String>) -> ExitCode {
    let told = told.and_then(|told| output(&told.printed).map(|()| told));
    match told {
        Ok(told) => {
            told.notes.iter().for_each(|note| eprintln!("{note}"));
            ExitCode::from(told.status)
        }
        Err(reason) => ended(Err(reason)),
    }
}

/// Checks an address, over the answers that come in if they are called something.
fn checked(
    form: &[u8],
    policy: &[u8],
    entry: &[u8],
    name: Option<&Vec<u8>>,
) -> Result<Told, String> {
    let form = Form::read(form).ok_or("FORM is plain, explain, json or next")?;
    let mut handed = AddressHanded {
        policy: policy.to_vec(),
        entry: entry.to_vec(),
        complete: form.is_complete(),
        ..AddressHanded::default()
    };
    if let Some(name) = name {
        let answers = input(handed::Form::Description.most_octets())?;
        handed = handed.with_file(&String::from_utf8_lossy(name), &answers)?;
    }
    let said = address::said(&mut address::code::Proved::default(), form, &handed)?;
    Ok(said.into())
}

/// The day that comes in, called so.
fn described(name: &[u8]) -> Result<Day, String> {
    let octets = input(MOST_DAY_OCTETS as u64 + 1)?;
    day::read(&Proved, &String::from_utf8_lossy(name), &octets)
}

fn rows(form: &[u8], name: &[u8]) -> Result<Told, String> {
    let form = rows_form(form)?;
    Ok(day::told(form, &described(name)?))
}

fn received_rows(form: &[u8], files: &[Vec<u8>]) -> Result<Told, String> {
    let form = rows_form(form)?;
    Ok(received::told(form, &received::read_all(files)?))
}

fn rows_form(form: &[u8]) -> Result<DayForm, String> {
    let form = DayForm::read(form);
    form.ok_or_else(|| "FORM is plain, csv or json".to_string())
}

fn reported(form: &[u8], name: &[u8]) -> Result<Told, String> {
    let form = ReportForm::read(form).ok_or("FORM is plain, name or subject")?;
    report::told(form, &described(name)?)
}

fn write(tags: &[Vec<u8>]) -> Result<(), String> {
    let mut record = writing::record(&Proved, tags)?;
    record.push(b'\n');
    output(&record)
}

/// A final line end is not of the text. No more of it is taken than settles that it
/// is too long.
fn read() -> Result<(), String> {
    let given = input(reading::MOST_OCTETS as u64 + 2)?;
    let text = given.strip_suffix(b"\n").unwrap_or(&given);
    let mut lines = reading::lines(&Proved, text)?;
    lines.push(String::new());
    output(lines.join("\n").as_bytes())
}
