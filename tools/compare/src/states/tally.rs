//! What the calls gave.

use std::collections::BTreeMap;
use std::fmt;

#[derive(Clone, Debug)]
pub struct Tally {
    /// What the calls were made on.
    what: &'static str,
    /// What must come, by the call's word and the kind of what it gives.
    wanted: &'static [&'static str],
    pub made: u64,
    given: BTreeMap<String, u64>,
}

impl Tally {
    pub fn new(what: &'static str, wanted: &'static [&'static str]) -> Tally {
        Tally {
            what,
            wanted,
            made: 0,
            given: BTreeMap::new(),
        }
    }

    pub fn add(&mut self, word: &str, kind: u8) {
        let kinds = ["accepted", "ask", "verdict", "refused"];
        let kind = kinds.get(usize::from(kind)).copied().unwrap_or("unknown");
        *self.given.entry(format!("{word} {kind}")).or_default() += 1;
    }

    /// The error is of an answer that never came.
    pub fn complete(&self) -> Result<(), String> {
        let missing = |wanted: &&&str| !self.given.contains_key(**wanted);
        match self.wanted.iter().find(missing) {
            Some(wanted) => Err(format!("no {wanted} in {} {}", self.made, self.what)),
            None => Ok(()),
        }
    }
}

impl fmt::Display for Tally {
    fn fmt(&self, out: &mut fmt::Formatter<'_>) -> fmt::Result {
        let calls: u64 = self.given.values().sum();
        let given = self
            .given
            .iter()
            .map(|(what, count)| format!("{count} {what}"));
        let given: Vec<String> = given.collect();
        let (made, what) = (self.made, self.what);
        write!(out, "{made} {what}, {calls} calls ({})", given.join(", "))
    }
}
