//! How many sheets end in which way, and how many names they ask.

use std::collections::BTreeMap;
use std::fmt;
use std::time::{Duration, Instant};

use crate::generate::SheetKind;
use evaluator::sheet;

/// Places of refusals that are counted each for itself.
const NAMED_PLACES: [&str; 5] = ["0", "16", "253", "255", "65536"];

#[derive(Clone, Debug, Default)]
pub struct Tally {
    pub sheets: u64,
    /// Sheets by `result R`.
    pub results: BTreeMap<String, u64>,
    /// Sheets by result, policy and disposition together.
    pub verdicts: BTreeMap<String, u64>,
    /// Sheets by the number of a refusal.
    pub refusals: BTreeMap<u64, u64>,
    /// Sheets by number and place of a refusal; all but a few places together.
    pub places: BTreeMap<String, u64>,
    /// Sheets by the number of names asked.
    pub asked: BTreeMap<u64, u64>,
    /// The time of the runs alone.
    pub time: Duration,
}

/// Runs the sheets of a kind and seed.
pub fn tally(kind: SheetKind, seed: u64, count: u64) -> Tally {
    let mut tally = Tally::default();
    for index in 0..count {
        let sheet = kind.sheet(seed, index);
        let begin = Instant::now();
        let output = sheet::run(&sheet);
        tally.time += begin.elapsed();
        tally.add(&String::from_utf8_lossy(&output));
    }
    tally
}

impl Tally {
    /// How the sheets ended, in one line: verdicts by result, refusals by number.
    pub fn endings(&self) -> String {
        let results = self.results.iter().map(|(word, n)| format!("{word} {n}"));
        let refusals = self.refusals.iter();
        let refusals = refusals.map(|(number, n)| format!("refused {number} {n}"));
        results.chain(refusals).collect::<Vec<_>>().join(", ")
    }

    /// Counts one output by its lines.
    pub fn add(&mut self, output: &str) {
        self.sheets += 1;
        let mut verdict = Vec::new();
        for line in output.lines() {
            let words: Vec<&str> = line.split(' ').collect();
            match words.as_slice() {
                ["result", word] => {
                    *self.results.entry(word.to_string()).or_default() += 1;
                    verdict.push(line.to_string());
                }
                ["policy" | "disposition", _] => verdict.push(line.to_string()),
                ["asked", count] => count_up(&mut self.asked, count),
                ["refused", number, "at", place] => {
                    count_up(&mut self.refusals, number);
                    let place = NAMED_PLACES.iter().find(|named| *named == place);
                    let place = place.unwrap_or(&"another place");
                    *self
                        .places
                        .entry(format!("{number} at {place}"))
                        .or_default() += 1;
                }
                _ => {}
            }
        }
        if !verdict.is_empty() {
            *self.verdicts.entry(verdict.join(", ")).or_default() += 1;
        }
    }
}

fn count_up(counts: &mut BTreeMap<u64, u64>, number: &str) {
    if let Ok(number) = number.parse() {
        *counts.entry(number).or_default() += 1;
    }
}

impl fmt::Display for Tally {
    fn fmt(&self, out: &mut fmt::Formatter<'_>) -> fmt::Result {
        writeln!(out, "sheets {}", self.sheets)?;
        for (word, count) in &self.results {
            writeln!(out, "result {word}: {count}")?;
        }
        for (number, count) in &self.refusals {
            writeln!(out, "refused {number}: {count}")?;
        }
        for (place, count) in &self.places {
            writeln!(out, "refused {place}: {count}")?;
        }
        for (verdict, count) in &self.verdicts {
            writeln!(out, "{verdict}: {count}")?;
        }
        for (names, count) in &self.asked {
            writeln!(out, "asked {names}: {count}")?;
        }
        Ok(())
    }
}
