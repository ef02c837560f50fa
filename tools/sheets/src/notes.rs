//! What is said beside an output: what a refusal means and where, names without
//! an answer, and answers that no walk asked.

use std::collections::HashSet;

use crate::handed::Handed;
use crate::printed::Printed;
use crate::refused;
use crate::shown::brief;
use crate::written::places;
use evaluator::domain::{without_dot, PREFIX};
use evaluator::refusal::Refusal;
use evaluator::sheet::{self, Sheet};

/// The most notes of one kind, as of answers that no walk asked.
const MOST_OF_A_KIND: usize = 20;

/// The notes, a line each.
pub fn notes(handed: &Handed, printed: &Printed) -> Vec<String> {
    match printed {
        Printed::Refused(refusal) => vec![refusal_note(handed, *refusal)],
        Printed::Verdict { asked, .. } => match sheet::read(handed.sheet()) {
            Ok(sheet) => answer_notes(Some(&handed.name), &given_names(handed, &sheet), asked),
            Err(_) => Vec::new(),
        },
    }
}

fn refusal_note(handed: &Handed, refusal: Refusal) -> String {
    let meaning = refused::meaning(handed.sheet(), refusal);
    let place = handed.place_words(meaning.place);
    let (name, number, said) = (&handed.name, refusal.number, meaning.sentence);
    format!("{name}: {place}: refused {number}: {said}")
}

/// The answers of a sheet, by their names.
fn given_names(handed: &Handed, sheet: &Sheet) -> Vec<GivenName> {
    let places = places(handed.sheet());
    let before = 1 + sheet.message.identifiers.len();
    let answers = places.iter().skip(before).zip(&sheet.answers);
    answers
        .map(|(place, given)| GivenName::new(given.name, handed.place_words(*place)))
        .collect()
}

/// The name of an answer that was handed over, and where it stands.
pub(crate) struct GivenName {
    /// In lower case, without a final dot.
    name: Vec<u8>,
    place: String,
}

impl GivenName {
    pub(crate) fn new(name: &[u8], place: String) -> GivenName {
        let name = without_dot(name).to_ascii_lowercase();
        GivenName { name, place }
    }
}

/// Names that were asked and have no answer in a file, if there is one, and answers
/// that were never asked.
pub(crate) fn answer_notes(
    file: Option<&str>,
    given: &[GivenName],
    asked: &[Vec<u8>],
) -> Vec<String> {
    let names: HashSet<&[u8]> = given.iter().map(|own| own.name.as_slice()).collect();
    let missing = asked.iter().filter(|name| !names.contains(name.as_slice()));
    let place = file.map_or(String::new(), |file| format!(" in {file}"));
    let mut notes: Vec<String> = missing
        .map(|name| {
            let name = String::from_utf8_lossy(name);
            format!("no answer{place} for {name}: read as a failed lookup")
        })
        .collect();
    notes.extend(never_asked(given, asked));
    notes
}

fn never_asked(given: &[GivenName], asked: &[Vec<u8>]) -> Vec<String> {
    let asked: HashSet<&[u8]> = asked.iter().map(Vec::as_slice).collect();
    let never = given
        .iter()
        .filter(|own| !asked.contains(own.name.as_slice()));
    let never = never.map(|own| never_asked_note(own, &asked)).collect();
    shortened(never, "never asked")
}

/// Notes of one kind, and of how many more nothing is said.
pub(crate) fn shortened(mut notes: Vec<String>, kind: &str) -> Vec<String> {
    let more = notes.len().saturating_sub(MOST_OF_A_KIND);
    notes.truncate(MOST_OF_A_KIND);
    if more > 0 {
        notes.push(format!("{kind}: {more} more"));
    }
    notes
}

fn never_asked_note(own: &GivenName, asked: &HashSet<&[u8]>) -> String {
    let GivenName { name, place } = own;
    let whole = [PREFIX, name.as_slice()].concat();
    let meant = match asked.contains(whole.as_slice()) {
        true => format!("; the name asked is {}", brief(&whole)),
        false => String::new(),
    };
    let name = String::from_utf8_lossy(name);
    format!("never asked: {name} ({place}){meant}")
}
