//! What is said beside the outcome of a check: what a refusal means and where, a
//! name without an answer, and answers that were never asked.

use super::refused::meaning;
use super::{AddressHanded, Came, Told};
use crate::notes::{answer_notes, GivenName};
use evaluator::refusal::Refusal;

/// The notes, a line each; none before there is an outcome.
pub fn notes(handed: &AddressHanded) -> Vec<String> {
    let told = Told::new(handed);
    match &told.ran.came {
        Came::Refused(refusal, name) => vec![refusal_note(handed, *refusal, name.as_deref())],
        Came::Next(_) => Vec::new(),
        Came::Verdict(_) => {
            let given = handed.answers.iter();
            let names = given.map(|own| GivenName::new(&own.name, format!("line {}", own.line)));
            let names: Vec<GivenName> = names.collect();
            answer_notes(handed.file.as_deref(), &names, &told.ran.names)
        }
    }
}

/// A refused answer has the line where it begins.
fn refusal_note(handed: &AddressHanded, refusal: Refusal, name: Option<&[u8]>) -> String {
    let given = name.and_then(|name| handed.given(name));
    let place = match (&handed.file, given) {
        (Some(file), Some(given)) => format!("{file}: line {}: ", given.line),
        _ => String::new(),
    };
    let (number, said) = (refusal.number, meaning(handed, refusal, name));
    format!("{place}refused {number}: {said}")
}
