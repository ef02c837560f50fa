//! A day as an object of JSON.

use super::rows::as_written;
use super::shown::{alignment, listed};
use super::{totals, Day, DayRow, RowIdentifier, DISPOSITIONS, DKIM};
use crate::description::{domain_word, KINDS, OUTCOMES};
use crate::json::Json;

/// The policy domain (null where no line gives it), the rows, most messages first,
/// and the totals.
pub fn json(day: &Day) -> Json {
    let domain = day.domain.as_ref();
    let domain = domain.map(|own| name(&as_written(&own.value)));
    let rows = day.sorted_rows();
    Json::Object(vec![
        ("domain", Json::or_null(domain)),
        ("rows", Json::List(rows.iter().map(row).collect())),
        ("totals", Json::Object(totals_members(totals(&day.rows)))),
    ])
}

pub fn name(domain: &[u8]) -> Json {
    Json::text(domain_word(domain))
}

pub fn number(count: u64) -> Json {
    Json::Number(usize::try_from(count).unwrap_or(usize::MAX))
}

fn row(row: &DayRow) -> Json {
    Json::Object(row_members(row))
}

pub fn row_members(row: &DayRow) -> Vec<(&'static str, Json)> {
    let identifiers = row.identifiers.iter().map(identifier);
    vec![
        ("source", Json::text(row.source.to_string())),
        ("count", number(row.count.into())),
        (
            "disposition",
            Json::text(listed(&DISPOSITIONS, row.disposition)),
        ),
        ("dkim", Json::text(alignment(row.dkim))),
        ("spf", Json::text(alignment(row.spf))),
        ("author", name(&row.author)),
        ("identifiers", Json::List(identifiers.collect())),
    ]
}

fn identifier(own: &RowIdentifier) -> Json {
    let selector = (own.kind == DKIM).then(|| name(&own.selector));
    Json::Object(vec![
        ("kind", Json::text(listed(&KINDS, own.kind))),
        ("outcome", Json::text(listed(&OUTCOMES, own.outcome))),
        ("domain", name(&own.domain)),
        ("selector", Json::or_null(selector)),
    ])
}

/// The totals by disposition, and in all.
pub fn totals_members(totals: [u64; 3]) -> Vec<(&'static str, Json)> {
    let mut members: Vec<(&str, Json)> = DISPOSITIONS.into_iter().zip(totals.map(number)).collect();
    members.push(("all", number(totals.iter().sum())));
    members
}
