//! The rows of reports as CSV (RFC 4180), each with its file.

use super::{sorted, Received};
use crate::cells::comma_separated;
use crate::day::shown::{columns, COLUMNS};

/// A line of names, then one for each row, most messages first.
pub fn csv(reports: &[Received]) -> String {
    let head = ("file", COLUMNS.map(String::from));
    let rows = sorted(reports).into_iter();
    let rows = rows.map(|(report, row)| (report.name.as_str(), columns(row)));
    let lines = [head].into_iter().chain(rows);
    lines
        .map(|(file, cells)| comma_separated(&[&[file.to_string()], &cells[..]].concat()))
        .collect()
}
