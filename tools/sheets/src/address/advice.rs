//! Where reports may go after a check, and what to look out for.

use super::refused::entry_fault;
use super::{plain, AddressHanded, Came, Told};
use crate::description::quoted;
use evaluator::address::entry::{hosted, Hosted};
use evaluator::address::Outcome;
use evaluator::policy::entries::entries;

/// What must be said before a report is sent: of a text that takes the address's
/// place where reports may go and where not, and of entries in which a mailer may
/// find another host.
pub fn advice(handed: &AddressHanded) -> Vec<String> {
    advised(&Told::new(handed))
}

pub fn advised(told: &Told) -> Vec<String> {
    let mut advice = Vec::new();
    if is_replaced(told) {
        let entries = send(told).into_iter();
        advice.extend(entries.map(|entry| format!("reports may go to {entry}")));
        advice.extend(passed_over(&told.ran.text));
    }
    advice.extend(cautions(told));
    advice
}

fn outcome(told: &Told) -> Option<Outcome> {
    match &told.ran.came {
        Came::Verdict(verdict) => Some(verdict.outcome),
        _ => None,
    }
}

fn is_replaced(told: &Told) -> bool {
    matches!(outcome(told), Some(Outcome::Replaced { .. }))
}

/// The entries to which reports may go.
pub fn send(told: &Told) -> Vec<String> {
    let usable = usable(told).into_iter();
    usable.map(|own| plain(own.entry)).collect()
}

/// Those of the text that takes the address's place, else the address itself, that
/// 23 lets through; none where it did not agree.
fn usable<'t>(told: &'t Told) -> Vec<Hosted<'t>> {
    match outcome(told) {
        Some(Outcome::Inside | Outcome::Confirmed) => hosted(&told.handed.entry),
        Some(Outcome::Replaced { .. }) => hosted(&told.ran.text),
        Some(Outcome::No | Outcome::NotKnown) | None => Vec::new(),
    }
}

/// The entries of a text, numbered from 1, that 23 stops.
fn passed_over(text: &[u8]) -> Vec<String> {
    let stopped = |(number, entry): (usize, &[u8])| {
        let (why, entry) = (entry_fault(entry)?, quoted(entry));
        Some(format!(
            "nothing may go to entry {number} of rua, {entry}: {why}"
        ))
    };
    (1..).zip(entries(text)).filter_map(stopped).collect()
}

/// The host that is checked follows the last `@`. A mailer reads a URI by other rules.
pub fn cautions(told: &Told) -> Vec<String> {
    let caution = |own: &Hosted| {
        let (mark, entry) = (odd_mark(own.entry)?, plain(own.entry));
        let host = plain(own.host.octets());
        Some(format!(
            "a mailer may find another host than {host} in {entry}, since it has {mark}"
        ))
    };
    usable(told).iter().filter_map(caution).collect()
}

/// What may end an address early, or begin its host, if an entry has it.
fn odd_mark(entry: &[u8]) -> Option<&'static str> {
    let has = |text: &[u8]| entry.windows(text.len()).any(|part| part == text);
    let ats = entry.iter().filter(|octet| **octet == b'@').count();
    let marks = [
        (has(b"?"), "a `?`"),
        (has(b"#"), "a `#`"),
        (ats > 1, "a second `@`"),
        (has(b"%40"), "an `@` written `%40`"),
    ];
    let found = marks.into_iter().find(|(found, _)| *found);
    found.map(|(_, mark)| mark)
}
