//! Totals by policy domain, and by author domain.

use std::cmp::Reverse;
use std::collections::BTreeMap;

use super::{has_failed, messages, Received};
use crate::day::{totals, DayRow};

/// The messages of a domain.
#[derive(Clone, Debug, PartialEq, Eq)]
pub struct Group<'a> {
    pub domain: &'a [u8],
    /// Those of rows that failed.
    pub failed: u64,
    /// By disposition, at its number.
    pub totals: [u64; 3],
}

impl Group<'_> {
    pub fn count(&self) -> u64 {
        self.totals.iter().sum()
    }
}

/// The policy domains of the rows' reports, most messages first.
pub fn by_policy<'a>(rows: &[(&'a Received, &'a DayRow)]) -> Vec<Group<'a>> {
    groups(rows.iter().map(|(report, row)| (&report.policy, *row)))
}

/// The author domains of the rows, most messages first.
pub fn by_author<'a>(rows: &[(&'a Received, &'a DayRow)]) -> Vec<Group<'a>> {
    groups(rows.iter().map(|(_, row)| (&row.author, *row)))
}

fn groups<'a>(rows: impl Iterator<Item = (&'a Vec<u8>, &'a DayRow)>) -> Vec<Group<'a>> {
    let mut own: BTreeMap<&[u8], Vec<&DayRow>> = BTreeMap::new();
    for (domain, row) in rows {
        own.entry(domain).or_default().push(row);
    }
    let group = |(domain, rows): (&'a [u8], Vec<&'a DayRow>)| Group {
        domain,
        failed: messages(rows.iter().copied().filter(|row| has_failed(row))),
        totals: totals(rows),
    };
    let mut groups: Vec<Group> = own.into_iter().map(group).collect();
    groups.sort_by_key(|group| Reverse(group.count()));
    groups
}
