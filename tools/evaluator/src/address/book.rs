//! The book of an address check's calls: what a list of them gives back and leaves
//! in lent memory.

use super::{check, Address, Check, Progress, Verdict};
use crate::asking::Asking;
use crate::refusal::Refusal;
use crate::txt::Answer;
use crate::walk::AskedName;

/// "a book like 01's: names for that one check". Without an address nothing was
/// started.
#[derive(Clone, Debug, Default, PartialEq, Eq)]
pub struct AddressBook {
    address: Option<Address>,
    asking: Asking,
}

/// The next step; the third is a refusal.
#[derive(Clone, Debug, PartialEq, Eq)]
pub enum AddressStep {
    Ask(AskedName),
    Verdict(Verdict),
}

impl AddressBook {
    /// Starts a check afresh; a refused start leaves the book as it stood.
    pub fn start(&mut self, policy: &[u8], entry: &[u8]) -> Result<(), Refusal> {
        *self = AddressBook {
            address: Some(Address::read(policy, entry)?),
            asking: Asking::default(),
        };
        Ok(())
    }

    /// The first name without an answer, which is now asked, or the verdict.
    pub fn next_step(&mut self) -> Result<AddressStep, Refusal> {
        let check = self.check().ok_or(Refusal::new(7, 0))?;
        Ok(match check.progress {
            Progress::Ask(asked) => {
                self.asking.ask(&asked.name);
                AddressStep::Ask(asked)
            }
            Progress::Verdict(verdict) => AddressStep::Verdict(verdict),
        })
    }

    /// "Answer: 5, 6, 10; else kept, scratch as above, no name asked."
    pub fn answer(
        &mut self,
        name: &[u8],
        answer: Answer,
        scratch: &mut [u8],
    ) -> Result<(), Refusal> {
        self.asking.answer(name, answer, scratch)
    }

    /// "Result: 7 while a name lacks an answer, else the verdict."
    pub fn result(&self) -> Result<Verdict, Refusal> {
        match self.check().map(|check| check.progress) {
            Some(Progress::Verdict(verdict)) => Ok(verdict),
            _ => Err(Refusal::new(7, 0)),
        }
    }

    /// The names asked so far, in order, the one now lacking an answer included.
    pub fn names(&self) -> Vec<AskedName> {
        self.check().map_or(Vec::new(), |check| check.names)
    }

    /// The name now asked.
    pub fn now_asked(&self) -> Option<&[u8]> {
        self.asking.now_asked()
    }

    /// The check over the accepted answers; nothing if none was started.
    pub fn check(&self) -> Option<Check> {
        let address = self.address.as_ref()?;
        Some(check(address, |name| self.asking.accepted(name)))
    }
}
