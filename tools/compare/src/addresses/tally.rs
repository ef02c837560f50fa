//! How the calls were answered.

use std::collections::BTreeMap;
use std::fmt;

use crate::refused::Refused;
use sheets::programs::checks::{Call, Told};

/// Every call, outcome and refusal of an address check.
const CALLS: [&str; 4] = ["start", "next", "answer", "result"];
const OUTCOMES: [&str; 5] = ["not known", "no", "inside", "confirmed", "replaced"];
const REFUSALS: [u8; 6] = [5, 6, 7, 10, 11, 23];

#[derive(Clone, Debug, Default)]
pub struct Tally {
    /// By their words.
    calls: BTreeMap<&'static str, u64>,
    /// Verdicts of the next step, by the words of their outcomes.
    verdicts: BTreeMap<&'static str, u64>,
    /// Accepted starts.
    checks: u64,
    asks: u64,
    refused: Refused,
}

fn count(counts: &BTreeMap<&'static str, u64>, word: &str) -> u64 {
    counts.get(word).copied().unwrap_or(0)
}

impl Tally {
    /// Counts one call.
    pub fn add(&mut self, call: &Call, told: &Told) {
        *self.calls.entry(call.word()).or_default() += 1;
        match (call, told) {
            (_, Told::Refused(refusal)) => self.refused.add(refusal.number),
            (Call::Start(_), _) => self.checks += 1,
            (Call::Next, Told::Ask(_)) => self.asks += 1,
            (Call::Next, Told::Verdict(verdict)) => {
                *self.verdicts.entry(verdict.outcome.word()).or_default() += 1;
            }
            _ => {}
        }
    }

    /// How many calls there were.
    pub fn calls(&self) -> u64 {
        self.calls.values().sum()
    }

    /// How many verdicts of the next step had this outcome.
    #[cfg(test)]
    pub fn outcome(&self, word: &str) -> u64 {
        count(&self.verdicts, word)
    }

    /// The error is of a call or an answer that never came.
    pub fn complete(&self) -> Result<(), String> {
        let call = |word| (format!("call {word}"), count(&self.calls, word));
        let outcome = |word| (format!("outcome {word}"), count(&self.verdicts, word));
        let refusal = |number| (format!("refusal {number}"), self.refused.of(number));
        let given = [
            ("accepted start".to_string(), self.checks),
            ("name".to_string(), self.asks),
        ];
        let counts = CALLS.map(call).into_iter().chain(given);
        let counts = counts.chain(OUTCOMES.map(outcome));
        match counts.chain(REFUSALS.map(refusal)).find(|(_, n)| *n == 0) {
            Some((what, _)) => Err(format!("no {what} in {} calls", self.calls())),
            None => Ok(()),
        }
    }

    /// Both together.
    pub fn with(&self, other: &Tally) -> Tally {
        Tally {
            calls: joined(&self.calls, &other.calls),
            verdicts: joined(&self.verdicts, &other.verdicts),
            checks: self.checks + other.checks,
            asks: self.asks + other.asks,
            refused: self.refused.with(&other.refused),
        }
    }
}

type Counts = BTreeMap<&'static str, u64>;

fn joined(one: &Counts, other: &Counts) -> Counts {
    let mut both = one.clone();
    for (word, count) in other {
        *both.entry(word).or_default() += count;
    }
    both
}

impl fmt::Display for Tally {
    fn fmt(&self, out: &mut fmt::Formatter<'_>) -> fmt::Result {
        let calls = CALLS.map(|word| format!("{} {word}", count(&self.calls, word)));
        let outcomes = OUTCOMES.map(|word| format!("{word} {}", count(&self.verdicts, word)));
        write!(
            out,
            "{} calls of {} checks ({}; {} names asked; {}{})",
            self.calls(),
            self.checks,
            calls.join(", "),
            self.asks,
            outcomes.join(", "),
            self.refused.listed(&REFUSALS)
        )
    }
}
