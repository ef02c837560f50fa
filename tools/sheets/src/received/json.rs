//! Reports as an object of JSON.

use super::groups::{by_author, by_policy, Group};
use super::refused::meaning;
use super::{has_failed, sorted, Received, Refused};
use crate::day::json::{name, number, row_members, totals_members};
use crate::day::{totals, DayRow};
use crate::json::Json;

/// The files, the rows that failed, the policy domains, the author domains, all rows and
/// the totals; rows and domains with the most messages first.
pub fn json(reports: &[Received]) -> Json {
    let sorted = sorted(reports);
    let rows: Vec<&DayRow> = sorted.iter().map(|(_, row)| *row).collect();
    let failed = sorted.iter().filter(|(_, row)| has_failed(row)).map(row);
    let domains =
        |kind, groups: Vec<Group>| Json::List(groups.iter().map(|own| group(kind, own)).collect());
    Json::Object(vec![
        ("files", Json::List(reports.iter().map(file).collect())),
        ("failed", Json::List(failed.collect())),
        ("policies", domains("policy", by_policy(&sorted))),
        ("authors", domains("author", by_author(&sorted))),
        ("rows", Json::List(sorted.iter().map(row).collect())),
        ("totals", Json::Object(totals_members(totals(rows)))),
    ])
}

fn file(report: &Received) -> Json {
    let refused = report.refused.as_ref();
    Json::Object(vec![
        ("file", Json::text(&report.name)),
        ("rows", Json::Number(report.rows.len())),
        ("refused", Json::or_null(refused.map(refusal))),
    ])
}

fn refusal(refused: &Refused) -> Json {
    Json::Object(vec![
        ("number", Json::Number(usize::from(refused.refusal.number))),
        ("at", Json::Number(refused.refusal.place)),
        ("meaning", Json::text(meaning(refused))),
    ])
}

fn row((report, row): &(&Received, &DayRow)) -> Json {
    let mut members = vec![("file", Json::text(&report.name))];
    members.extend(row_members(row));
    Json::Object(members)
}

fn group(kind: &'static str, group: &Group) -> Json {
    let mut members = vec![(kind, name(group.domain)), ("failed", number(group.failed))];
    members.extend(totals_members(group.totals));
    Json::Object(members)
}
