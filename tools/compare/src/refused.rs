//! How often each refusal was met.

use std::collections::BTreeMap;

#[derive(Clone, Debug, Default)]
pub struct Refused(BTreeMap<u8, u64>);

impl Refused {
    pub fn add(&mut self, number: u8) {
        *self.0.entry(number).or_default() += 1;
    }

    /// How often this one was met.
    pub fn of(&self, number: u8) -> u64 {
        self.0.get(&number).copied().unwrap_or(0)
    }

    /// How many there were in all.
    pub fn all(&self) -> u64 {
        self.0.values().sum()
    }

    /// Both together.
    pub fn with(&self, other: &Refused) -> Refused {
        let mut both = self.clone();
        for (number, count) in &other.0 {
            *both.0.entry(*number).or_default() += count;
        }
        both
    }

    /// The error is of what no thing ever came to: one of these counts, or one of these
    /// refusals.
    pub fn all_came(
        &self,
        thing: &str,
        counts: &[(&str, u64)],
        numbers: &[u8],
    ) -> Result<(), String> {
        if let Some((what, _)) = counts.iter().find(|(_, count)| *count == 0) {
            return Err(format!("no {thing} {what}"));
        }
        match numbers.iter().find(|number| self.of(**number) == 0) {
            Some(number) => Err(format!("no {thing} was refused {number}")),
            None => Ok(()),
        }
    }

    /// Each of these refusals with its count, as `, 3 refused 15`.
    pub fn listed(&self, numbers: &[u8]) -> String {
        let words = numbers
            .iter()
            .map(|number| format!(", {} refused {number}", self.of(*number)));
        words.collect()
    }
}
