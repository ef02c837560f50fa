//! Reports in tables: what failed and from where first, then totals by policy domain
//! and by author domain, then all rows.

use super::groups::{by_author, by_policy, Group};
use super::{has_failed, messages, sorted, Received};
use crate::cells::in_columns;
use crate::day::table::{rows_alone, rows_and_totals};
use crate::day::DayRow;
use crate::description::domain_word;

/// Those behind the domain.
const COLUMNS: [&str; 5] = ["count", "failed", "none", "quarantine", "reject"];
/// Where they stand.
const NUMBERS: [usize; 5] = [1, 2, 3, 4, 5];

/// A line for each refusal, and the tables where there is a row.
pub fn table(reports: &[Received]) -> String {
    let refused: String = reports.iter().filter_map(refused_line).collect();
    let sorted = sorted(reports);
    let rows: Vec<&DayRow> = sorted.iter().map(|(_, row)| *row).collect();
    let mut parts: Vec<String> = Vec::new();
    if !refused.is_empty() {
        parts.push(refused);
    }
    if !rows.is_empty() {
        parts.push(failed(&rows));
        parts.push(by_domain("policy", &by_policy(&sorted)));
        parts.push(by_domain("author", &by_author(&sorted)));
        parts.push(all(&rows, reports.len()));
    }
    parts.join("\n")
}

fn refused_line(report: &Received) -> Option<String> {
    let refused = report.refused.as_ref()?;
    Some(format!("{} of {}\n", refused.refusal, report.name))
}

fn failed(rows: &[&DayRow]) -> String {
    let failed = rows.iter().copied().filter(|row| has_failed(row));
    let failed: Vec<&DayRow> = failed.collect();
    let [count, all] = [&failed, rows].map(|own| messages(own.iter().copied()));
    let head = format!("what failed, and from where: {count} of {all} messages\n");
    match failed.is_empty() {
        true => head,
        false => head + &rows_alone(&failed),
    }
}

/// Totals by a domain of this kind.
fn by_domain(kind: &str, groups: &[Group]) -> String {
    let head = cells(kind.to_string(), COLUMNS.map(String::from));
    let lines: Vec<_> = [head].into_iter().chain(groups.iter().map(line)).collect();
    format!("by {kind} domain\n{}", in_columns(&lines, &NUMBERS))
}

fn line(group: &Group) -> [String; COLUMNS.len() + 1] {
    let [none, quarantine, reject] = group.totals;
    let numbers = [group.count(), group.failed, none, quarantine, reject];
    cells(
        domain_word(group.domain),
        numbers.map(|own| own.to_string()),
    )
}

fn cells(first: String, others: [String; COLUMNS.len()]) -> [String; COLUMNS.len() + 1] {
    let [a, b, c, d, e] = others;
    [first, a, b, c, d, e]
}

fn all(rows: &[&DayRow], reports: usize) -> String {
    let reports = match reports {
        1 => "1 report".to_string(),
        many => format!("{many} reports"),
    };
    let head = format!("all rows: {} of {reports}\n", rows.len());
    head + &rows_and_totals(rows)
}
