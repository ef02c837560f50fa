//! Holds the proved code to the second evaluator on single cases: policy texts,
//! answers, file names, fields, and domains with their labels.

mod check;
#[cfg(test)]
mod tests;

use crate::calls::Calls;
use check::Checker;
use records::code::Code;
use sheets::programs::vectors::{cases, NameCase};
use waslidhaj::raw::Written;

/// Compares on all cases; gives a line of what was agreed on, or the first
/// difference.
pub fn compare(
    calls: &impl Calls,
    records: &impl Code,
    file_name: impl Fn(&NameCase, &mut [u8]) -> Written,
) -> Result<String, String> {
    let mut checker = Checker::new(calls.clone(), records, file_name);
    for case in cases() {
        checker.check(&case)?;
    }
    Ok(format!("agree on {}", checker.counts))
}

/// A file name by the proved code.
pub fn proved_name(given: &NameCase, out: &mut [u8]) -> Written {
    waslidhaj::calls::file_name(
        &given.receiver,
        &given.policy_domain,
        given.begin,
        given.end,
        given.named,
        &given.id,
        out,
    )
}
