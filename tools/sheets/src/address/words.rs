//! An address check in lines.

use super::advice::advised;
use super::reasons::{shown, why};
use super::refused::meaning;
use super::{plain, AddressHanded, Came, Told};
use crate::description::quoted;
use evaluator::address::{Outcome, Verdict, CONFIRMING};
use evaluator::txt::{acceptable, Status};

/// What is said of an address check: the names asked one by one with what was
/// answered, what came of them, and why.
pub fn lines(handed: &AddressHanded) -> Vec<String> {
    let told = Told::new(handed);
    let mut lines = head(&told);
    match &told.ran.came {
        Came::Refused(refusal, name) => {
            let meaning = meaning(handed, *refusal, name.as_deref());
            lines.push(format!("{refusal}: {meaning}"));
        }
        Came::Next(name) => lines.push(format!("next: ask {}", plain(name))),
        Came::Verdict(verdict) => lines.extend(verdict_lines(&told, verdict)),
    }
    lines
}

/// The two domains, and the names that have an answer.
fn head(told: &Told) -> Vec<String> {
    let Some((address, check)) = &told.started else {
        return Vec::new();
    };
    let mut lines = vec![
        format!("policy domain: {}", shown(&address.policy)),
        format!("host of the address: {}", shown(&address.host)),
    ];
    for asked in &check.names {
        if let Some(answer) = answer_words(told.handed, &asked.name) {
            let last = match asked.walk == CONFIRMING {
                true => "not inside, so it must agree: ",
                false => "",
            };
            lines.push(format!("{last}asked {}: {answer}", plain(&asked.name)));
        }
    }
    lines
}

/// What was answered to a name; nothing if that may still come. "zero bytes is the
/// same as none".
pub fn answer_words(handed: &AddressHanded, name: &[u8]) -> Option<&'static str> {
    let answer = handed.answer(name)?;
    Some(match (answer.status, answer.bytes) {
        _ if handed.given(name).is_none() => "missing",
        _ if !acceptable(answer) => "unreadable",
        (Status::Error, _) => "error",
        (Status::None, _) | (Status::Records, []) => "none",
        (Status::Records, _) => "records",
    })
}

/// The outcome and why; for an address that is replaced, what takes its place.
fn verdict_lines(told: &Told, verdict: &Verdict) -> Vec<String> {
    let why = why(told);
    let said = why.as_ref().map(|why| why.said.as_str());
    let word = match verdict.outcome {
        Outcome::No => "a plain no",
        outcome => outcome.word(),
    };
    let mut lines = vec![format!("{word}: {}", said.unwrap_or_default())];
    let details = why.map(|why| why.details).unwrap_or_default();
    lines.extend(details.into_iter().map(|detail| format!("  {detail}")));
    if let Outcome::Replaced { .. } = verdict.outcome {
        lines.push(format!("its place takes: {}", quoted(&told.ran.text)));
    }
    lines.extend(advised(told));
    lines
}
