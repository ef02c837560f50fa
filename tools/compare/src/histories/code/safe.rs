//! The calls by the safe interface.

use super::Entered;
use waslidhaj::raw::{FindingNumbers, List, ListChanged, Row};
use waslidhaj::{DayList, Disposition, DmarcResult, Finding, Refusal};

const RESULTS: [DmarcResult; 5] = [
    DmarcResult::None,
    DmarcResult::Pass,
    DmarcResult::Fail,
    DmarcResult::Temperror,
    DmarcResult::Permerror,
];
const DISPOSITIONS: [Disposition; 4] = [
    Disposition::None,
    Disposition::Quarantine,
    Disposition::Reject,
    Disposition::Defer,
];

/// What a call gives, and the list that it leaves.
type Safe = (Result<(), Refusal>, List);

pub fn clear(list: List, domain: &[u8], rows: &mut [Row]) -> Safe {
    let mut own = DayList::from_raw(list);
    let given = own.clear(domain, rows);
    (given, *own.raw())
}

/// Enters a verdict; nothing where its numbers or its domain cannot be handed in.
pub fn enter(list: List, entered: &Entered<'_>, rows: &mut [Row]) -> Option<Safe> {
    let entry = &entered.entry;
    let finding = finding(entry.finding, entered.domain)?;
    let mut own = DayList::from_raw(list);
    let (author, set) = (entry.author, entry.set);
    let given = own.enter(entry.source, &finding, author, set, entered.lists, rows);
    Some((given, *own.raw()))
}

fn finding(numbers: FindingNumbers, domain: &[u8]) -> Option<Finding> {
    let result = RESULTS.get(usize::from(numbers.result)).copied()?;
    let disposition = DISPOSITIONS
        .get(usize::from(numbers.disposition))
        .copied()?;
    Some(Finding {
        result,
        disposition,
        dkim: numbers.dkim != 0,
        spf: numbers.spf != 0,
        domain: String::from_utf8(domain.to_vec()).ok()?,
    })
}

/// What a call gives by the C interface, where the safe one gives and leaves the same.
pub fn in_both(in_c: ListChanged, safe: Safe, leaves: bool) -> Result<ListChanged, String> {
    let given = match in_c.refusal.number {
        0 => Ok(()),
        _ => Err(Refusal::from(in_c.refusal)),
    };
    match (given, in_c.list) == safe && leaves {
        true => Ok(in_c),
        false => Err(format!(
            "{given:?} in C is {:?} in Rust, or leaves something else",
            safe.0
        )),
    }
}
