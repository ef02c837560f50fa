//! A day's rows as CSV (RFC 4180), with a line of names before them.

use super::shown::{columns, COLUMNS};
use super::Day;
use crate::cells::comma_separated;

/// A line for each row, most messages first.
pub fn csv(day: &Day) -> String {
    let head = COLUMNS.map(String::from);
    let rows = day.sorted_rows();
    let lines = [head].into_iter().chain(rows.iter().map(columns));
    lines.map(|row| comma_separated(&row)).collect()
}
