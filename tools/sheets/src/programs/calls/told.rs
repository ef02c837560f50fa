//! What a call gives, and its words.

use std::fmt;

use evaluator::book::Step;
use evaluator::refusal::Refusal;
use evaluator::rows::Finding;
use evaluator::verdict::{Alignment, Verdict};

/// What a call gives.
#[derive(Clone, Debug, PartialEq, Eq)]
pub enum Told {
    Accepted,
    /// The name to ask.
    Ask(Vec<u8>),
    Verdict(Verdict),
    /// So many octets of a field were written.
    Wrote(usize),
    Finding(Finding),
    Refused(Refusal),
}

impl Told {
    /// What is told, or the refusal.
    pub fn of<T>(given: Result<T, Refusal>, told: impl FnOnce(T) -> Told) -> Told {
        given.map_or_else(Told::Refused, told)
    }

    pub fn step(step: Step) -> Told {
        match step {
            Step::Ask(asked) => Told::Ask(asked.name),
            Step::Verdict(verdict) => Told::Verdict(verdict),
        }
    }
}

impl fmt::Display for Told {
    fn fmt(&self, out: &mut fmt::Formatter<'_>) -> fmt::Result {
        match self {
            Told::Accepted => out.write_str("accepted"),
            Told::Ask(name) => write!(out, "ask {}", String::from_utf8_lossy(name)),
            Told::Verdict(verdict) => out.write_str(&verdict_words(verdict)),
            Told::Wrote(octets) => write!(out, "wrote {octets}"),
            Told::Finding(finding) => out.write_str(&finding_words(finding)),
            Told::Refused(refusal) => write!(out, "{refusal}"),
        }
    }
}

/// A verdict; of each alignment a letter.
fn verdict_words(verdict: &Verdict) -> String {
    let letters: String = verdict.alignments.iter().map(alignment_letter).collect();
    format!(
        "verdict {} policy={} disposition={} domain={} alignments={letters} count={}",
        verdict.result.word(),
        verdict.policy.word(),
        verdict.disposition.word(),
        String::from_utf8_lossy(&verdict.domain),
        verdict.asked,
    )
}

/// What would be entered, by its numbers.
fn finding_words(found: &Finding) -> String {
    format!(
        "result={} disposition={} dkim={} spf={} domain={}",
        found.result,
        found.disposition,
        found.dkim,
        found.spf,
        String::from_utf8_lossy(&found.domain),
    )
}

fn alignment_letter(alignment: &Alignment) -> char {
    match alignment {
        Alignment::NotJudged => 'j',
        Alignment::Aligned => 'a',
        Alignment::NotAligned => 'n',
        Alignment::Unknown => 'u',
    }
}
