//! Aggregate reports that were received (Ask 10 of document 02): what failed and from
//! where, totals by policy domain and by author domain and all rows, as a table, CSV
//! and JSON; and what the refusal of one means.

mod csv;
mod form;
mod groups;
mod json;
mod refused;
mod table;

pub use csv::csv;
pub use json::json;
pub use refused::notes;
pub use table::table;

use std::cmp::Reverse;

use crate::day::DayRow;
use evaluator::refusal::Refusal;

/// What was read of a report, up to its end or its refusal.
#[derive(Clone, Debug, Default, PartialEq, Eq)]
pub struct Received {
    /// The name of its file.
    pub name: String,
    /// The policy domain, once it was read: before the first row.
    pub policy: Vec<u8>,
    /// In the order of its records.
    pub rows: Vec<DayRow>,
    pub refused: Option<Refused>,
}

/// A refusal, and the text around its place as far as it is known.
#[derive(Clone, Debug, PartialEq, Eq)]
pub struct Refused {
    pub refusal: Refusal,
    /// What stands before the place; its front may be left out.
    pub before: Vec<u8>,
    /// What stands from the place on; its end may be left out.
    pub after: Vec<u8>,
    /// The texts that could stand there, each up to the end of its tag or word; none
    /// where there are many, or nothing could.
    pub next: Vec<Vec<u8>>,
}

/// Whether messages failed: neither method aligned, or they were quarantined or
/// rejected.
fn has_failed(row: &DayRow) -> bool {
    !row.dkim && !row.spf || row.disposition != 0
}

/// The rows of all reports, each with its report, most messages first.
fn sorted<'a>(reports: &'a [Received]) -> Vec<(&'a Received, &'a DayRow)> {
    let of_report = |report: &'a Received| report.rows.iter().map(move |row| (report, row));
    let mut rows: Vec<(&Received, &DayRow)> = reports.iter().flat_map(of_report).collect();
    rows.sort_by_key(|(_, row)| Reverse(row.count));
    rows
}

/// How many messages rows have.
fn messages<'a>(rows: impl IntoIterator<Item = &'a DayRow>) -> u64 {
    let counts = rows.into_iter().map(|row| u64::from(row.count));
    counts.sum()
}
