//! What the refusal of a report means, and which lines it is about.

use super::complete::{Complete, ROW_LINE};
use super::{DayRow, Text, DKIM, SPF};
use crate::domain_words;
use crate::notes::shortened;
use crate::policy_words::octet_words;
use crate::refused::one_too_many;
use evaluator::domain;
use evaluator::message::MOST_IDENTIFIERS;
use evaluator::refusal::Refusal;
use evaluator::report::MOST_ID_OCTETS;

const MOST_TEXT_OCTETS: usize = 4096;

/// What is wrong, and on which line.
type Fault = (usize, String);

/// What a refusal means, a line for each line of the description that it is about;
/// nothing if none is found.
pub fn notes(day: &Complete, refusal: Refusal) -> Vec<String> {
    let (name, number) = (day.name, refusal.number);
    let faults = match number {
        11 => names_and_times(day),
        18 => return vec![format!("{name}: refused 18: it has no row; {ROW_LINE}")],
        19 => texts(day),
        28 => day.rows.iter().filter_map(set).collect(),
        _ => Vec::new(),
    };
    let notes = faults
        .into_iter()
        .map(|(line, why)| format!("{name}: line {line}: refused {number}: {why}"));
    shortened(notes.collect(), &format!("{name}: refused {number}"))
}

/// What refusal 28 has against the identifiers of a row.
fn set(row: &DayRow) -> Option<Fault> {
    let first_spf = row.identifiers.iter().position(|own| own.kind == SPF);
    let mut numbered = row.identifiers.iter().enumerate();
    let (index, own) = numbered.find(|(index, own)| {
        let second_spf = own.kind == SPF && first_spf != Some(*index);
        second_spf || *index >= MOST_IDENTIFIERS
    })?;
    Some((own.line, one_too_many(index)))
}

/// What refusal 19 has against the reporter's texts.
fn texts(day: &Complete) -> Vec<Fault> {
    let mut faults = Vec::new();
    for (what, text) in [("organization", day.organization), ("email", day.email)] {
        if text.value.is_empty() {
            faults.push((text.line, format!("the {what} is empty")));
        }
        faults.extend(not_plain(what, text));
    }
    let contact = day.contact.and_then(|text| not_plain("contact", text));
    faults.extend(contact);
    faults
}

/// That a text is too long, or has an octet that is not plain.
fn not_plain(what: &str, text: &Text) -> Option<Fault> {
    let octets = text.value.len();
    if octets > MOST_TEXT_OCTETS {
        let why = format!("the {what} has {octets} octets, and 4,096 at the most");
        return Some((text.line, why));
    }
    let mut placed = text.value.iter().enumerate();
    let (place, octet) = placed.find(|(_, octet)| !(32..=126).contains(*octet))?;
    let octet = octet_words(*octet);
    let why =
        format!("the {what} has {octet} at place {place}, from 0, which is outside 32 to 126");
    Some((text.line, why))
}

/// What refusal 11 has against domains, selectors, the id and the times.
fn names_and_times(day: &Complete) -> Vec<Fault> {
    let mut faults: Vec<Fault> = Vec::new();
    faults.extend(bad_name(
        "policy domain",
        &day.domain.value,
        day.domain.line,
    ));
    faults.extend(bad_name("receiver", &day.receiver.value, day.receiver.line));
    faults.extend(bad_id(&day.id.value).map(|why| (day.id.line, format!("the id {why}"))));
    let (begin, end) = (day.begin, day.end);
    if begin.value > end.value {
        let (from, to, line) = (begin.value, end.value, end.line);
        let why = format!("begin, {from}, is after end, {to} (line {line})");
        faults.push((begin.line, why));
    }
    faults.extend(day.rows.iter().flat_map(row_names));
    faults
}

/// A name that breaks the domain rule.
fn bad_name(what: &str, name: &[u8], line: usize) -> Option<Fault> {
    domain::fault(name)?;
    let why = domain_words::why(name);
    Some((line, format!("the {what} is bad: {why}")))
}

fn bad_id(id: &[u8]) -> Option<String> {
    let other = id.iter().find(|octet| !octet.is_ascii_alphanumeric());
    match (id.len(), other) {
        (0, _) => Some("is empty".to_string()),
        (_, Some(octet)) => {
            let octet = octet_words(*octet);
            Some(format!("has {octet}; it has letters and digits alone"))
        }
        (octets, None) if octets > MOST_ID_OCTETS => Some(format!(
            "has {octets} octets, and {MOST_ID_OCTETS} at the most"
        )),
        _ => None,
    }
}

fn row_names(row: &DayRow) -> Vec<Fault> {
    let mut faults: Vec<Fault> = Vec::new();
    faults.extend(bad_name("author domain", &row.author, row.line));
    for own in &row.identifiers {
        faults.extend(bad_name("identifier's domain", &own.domain, own.line));
        if own.kind == DKIM {
            faults.extend(bad_name("selector", &own.selector, own.line));
        }
    }
    faults
}
