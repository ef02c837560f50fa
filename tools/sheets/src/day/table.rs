//! Rows as a table, with their totals below.

use super::shown::{columns, COLUMNS};
use super::{totals, Day, DayRow, DISPOSITIONS};
use crate::cells::in_columns;

/// The words of a line, a column each.
type Cells = [String; COLUMNS.len()];

/// The column that stands on the right, as numbers do.
const COUNT: usize = 1;

/// The rows, most messages first, and the totals by disposition and in all.
pub fn table(day: &Day) -> String {
    let rows = day.sorted_rows();
    rows_and_totals(&rows.iter().collect::<Vec<_>>())
}

/// The same of rows in their order.
pub fn rows_and_totals(rows: &[&DayRow]) -> String {
    in_columns(&[rows_lines(rows), totals_lines(rows)].concat(), &[COUNT])
}

/// Rows in their order, without totals.
pub fn rows_alone(rows: &[&DayRow]) -> String {
    in_columns(&rows_lines(rows), &[COUNT])
}

/// The names of the columns, and the rows.
fn rows_lines(rows: &[&DayRow]) -> Vec<Cells> {
    let head = [COLUMNS.map(String::from)];
    let rows = rows.iter().map(|row| columns(row));
    head.into_iter().chain(rows).collect()
}

/// Lines of their own, with a count and a disposition.
fn totals_lines(rows: &[&DayRow]) -> Vec<Cells> {
    let totals = totals(rows.iter().copied());
    let all = ("all", totals.iter().sum());
    let lines = DISPOSITIONS.into_iter().zip(totals).chain([all]);
    let cells = lines.map(|(word, count): (&str, u64)| {
        let mut cells = Cells::default();
        [cells[0], cells[COUNT], cells[2]] = ["total".into(), count.to_string(), word.into()];
        cells
    });
    cells.collect()
}
