//! The verdict.

use crate::numbers::{Alignment, AppliedPolicy, Disposition, DmarcResult};

/// What an evaluation comes to.
#[derive(Clone, Debug, PartialEq, Eq)]
pub struct Verdict {
    /// The result.
    pub result: DmarcResult,
    /// The policy that applies.
    pub policy: AppliedPolicy,
    /// What to do with the message.
    pub disposition: Disposition,
    /// The domain of the applied record in lower case, empty where there is none.
    pub domain: String,
    /// The alignment of each identifier, in the order in which they were added.
    pub alignments: Vec<Alignment>,
    /// How many names were asked.
    pub asked: usize,
}
