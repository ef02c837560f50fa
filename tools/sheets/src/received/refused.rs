//! The refusal of a report in words: its place, the text around it, and what could
//! stand there.

use super::form::{element, expected};
use super::{Received, Refused};
use crate::handed::in_file;
use crate::marked::marked;
use crate::policy_words::octet_words;

/// What is said of each report that is refused.
pub fn notes(reports: &[Received]) -> Vec<String> {
    let refused = reports.iter().filter_map(|report| {
        let refused = report.refused.as_ref()?;
        Some(lines(report, refused))
    });
    refused.flatten().collect()
}

fn lines(report: &Received, refused: &Refused) -> Vec<String> {
    let (number, place) = (refused.refusal.number, refused.refusal.place);
    let why = format!("octet {place}: refused {number}: {}", meaning(refused));
    let mut lines = vec![in_file(&report.name, &why)];
    let text = [&refused.before[..], &refused.after].concat();
    if !text.is_empty() {
        lines.extend(marked(&text, refused.before.len()));
    }
    lines.push(expected(&refused.before, &refused.next));
    lines.extend(hint(refused).map(String::from));
    lines.extend(told(report));
    lines
}

/// What a refusal means.
pub fn meaning(refused: &Refused) -> String {
    match (refused.refusal.number, refused.after.first()) {
        (20, Some(octet)) => {
            format!("{} is outside the form of a report", shown(*octet))
        }
        (21, _) => format!("{} is over its {} bits", widening(refused), width(refused)),
        (22, _) => "the report ends early".to_string(),
        _ => "text outside the form of a report".to_string(),
    }
}

fn shown(octet: u8) -> String {
    match octet {
        b'\r' | b'\n' => "a line end".to_string(),
        _ => octet_words(octet),
    }
}

/// The number that is too large.
fn widening(refused: &Refused) -> &'static str {
    element(&refused.before).unwrap_or("a number")
}

fn width(refused: &Refused) -> usize {
    match widening(refused) {
        "count" => 32,
        _ => 64,
    }
}

/// What is likely to be the reason, of a text outside the form.
fn hint(refused: &Refused) -> Option<&'static str> {
    let Refused { before, after, .. } = refused;
    let is_first = refused.refusal.place == 0;
    if is_first && after.starts_with(b"PK") {
        return Some("it looks like a zip archive: hand in what unzip -p prints of it, by -");
    }
    if is_first && after.starts_with(b"\x1f\x8b") {
        return Some("it is packed by gzip: name it .gz, or hand in what zcat prints of it, by -");
    }
    if is_first && after.starts_with(b"\xef\xbb\xbf") {
        return Some("it begins with a byte order mark, which the form does not have");
    }
    let is_blank = after.first().is_some_and(u8::is_ascii_whitespace);
    (is_blank && before.ends_with(b">")).then_some(
        "a blank or a line end after a tag is of another layout: what is read is the form that --report writes",
    )
}

/// That rows before the refusal are told.
fn told(report: &Received) -> Option<String> {
    let words = match report.rows.len() {
        0 => return None,
        1 => "the row before that was read, and is told".to_string(),
        count => format!("the {count} rows before that were read, and are told"),
    };
    Some(in_file(&report.name, &words))
}
