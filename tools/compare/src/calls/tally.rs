//! How the calls were answered.

use std::collections::BTreeMap;
use std::fmt;

use crate::refused::Refused;
use sheets::programs::calls::{Call, Told};

/// Every call, and every refusal of the calls on an evaluation.
const CALLS: [&str; 7] = [
    "open", "add", "next", "answer", "result", "field", "finding",
];
const REFUSALS: [u8; 10] = [1, 2, 3, 4, 5, 6, 7, 9, 10, 17];

#[derive(Clone, Debug, Default)]
pub struct Tally {
    /// By their words.
    calls: BTreeMap<&'static str, u64>,
    /// Accepted openings.
    messages: u64,
    asks: u64,
    verdicts: u64,
    refused: Refused,
}

impl Tally {
    /// Counts one call.
    pub fn add(&mut self, call: &Call, told: &Told) {
        *self.calls.entry(call.word()).or_default() += 1;
        match (call, told) {
            (_, Told::Refused(refusal)) => self.refused.add(refusal.number),
            (Call::Open(_), _) => self.messages += 1,
            (Call::Next, Told::Ask(_)) => self.asks += 1,
            (Call::Next, _) => self.verdicts += 1,
            _ => {}
        }
    }

    /// How many calls there were.
    pub fn calls(&self) -> u64 {
        self.calls.values().sum()
    }

    /// The error is of a call or an answer that never came.
    pub fn complete(&self) -> Result<(), String> {
        let call = |word| {
            let count = self.calls.get(word).copied().unwrap_or(0);
            (format!("call {word}"), count)
        };
        let refusal = |number| (format!("refusal {number}"), self.refused.of(number));
        let given = [
            ("accepted opening".to_string(), self.messages),
            ("name".to_string(), self.asks),
            ("verdict".to_string(), self.verdicts),
        ];
        let counts = CALLS.map(call).into_iter().chain(given);
        match counts.chain(REFUSALS.map(refusal)).find(|(_, n)| *n == 0) {
            Some((what, _)) => Err(format!("no {what} in {} calls", self.calls())),
            None => Ok(()),
        }
    }

    /// Both together.
    pub fn with(&self, other: &Tally) -> Tally {
        let mut calls = self.calls.clone();
        for (word, count) in &other.calls {
            *calls.entry(word).or_default() += count;
        }
        Tally {
            calls,
            messages: self.messages + other.messages,
            asks: self.asks + other.asks,
            verdicts: self.verdicts + other.verdicts,
            refused: self.refused.with(&other.refused),
        }
    }
}

impl fmt::Display for Tally {
    fn fmt(&self, out: &mut fmt::Formatter<'_>) -> fmt::Result {
        let calls = CALLS.map(|word| {
            let count = self.calls.get(word).copied().unwrap_or(0);
            format!("{count} {word}")
        });
        write!(
            out,
            "{} calls of {} messages ({}; {} names asked, {} verdicts{})",
            self.calls(),
            self.messages,
            calls.join(", "),
            self.asks,
            self.verdicts,
            self.refused.listed(&REFUSALS)
        )
    }
}
