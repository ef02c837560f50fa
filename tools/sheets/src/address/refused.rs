//! What a refusal of an address check means.

use super::AddressHanded;
use crate::domain_words;
use crate::policy_words::fault_words;
use crate::refused::refused_bytes;
use crate::shown::brief;
use evaluator::address::entry::{after_last_at, host, AddressFault};
use evaluator::refusal::Refusal;

/// The meaning of a refusal: of the start, or of the answer of a name.
pub fn meaning(handed: &AddressHanded, refusal: Refusal, name: Option<&[u8]>) -> String {
    match (refusal.number, name) {
        (11, _) => format!(
            "the policy domain is bad: {}",
            domain_words::why(&handed.policy)
        ),
        (23, _) => {
            let why = entry_fault(&handed.entry).unwrap_or_default();
            let shown = brief(&handed.entry);
            format!("the entry `{shown}` is no address that can be checked: {why}")
        }
        (6, Some(name)) => {
            let given = handed.given(name).map(|given| given.bytes.as_slice());
            refused_bytes(name, given.unwrap_or_default())
        }
        _ => "no refusal that a check handed over whole can have".to_string(),
    }
}

/// What refusal 23 has against an entry; nothing if it lets it through.
pub fn entry_fault(entry: &[u8]) -> Option<String> {
    Some(match host(entry).err()? {
        AddressFault::Comma => "it has a comma; give one entry of the list".to_string(),
        AddressFault::Entry(fault) => fault_words(fault),
        AddressFault::OtherScheme => "its scheme is not mailto".to_string(),
        AddressFault::NoAt => "it has no `@`".to_string(),
        AddressFault::Host => {
            let host = after_last_at(entry).unwrap_or_default();
            let why = domain_words::why(host.trim_ascii_end());
            format!("no domain stands after its last `@`: {why}")
        }
    })
}
