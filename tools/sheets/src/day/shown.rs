//! A row and its identifiers in words.

use super::{DayRow, RowIdentifier, DISPOSITIONS, DKIM};
use crate::description::{domain_word, word, KINDS, OUTCOMES};
use evaluator::verdict::Alignment;

/// What the columns of a row are called.
pub const COLUMNS: [&str; 7] = [
    "source",
    "count",
    "disposition",
    "dkim",
    "spf",
    "author",
    "identifiers",
];

/// The words of a row, a column each.
pub fn columns(row: &DayRow) -> [String; 7] {
    let identifiers = row.identifiers.iter().map(identifier);
    [
        row.source.to_string(),
        row.count.to_string(),
        listed(&DISPOSITIONS, row.disposition).to_string(),
        alignment(row.dkim).to_string(),
        alignment(row.spf).to_string(),
        domain_word(&row.author),
        identifiers.collect::<Vec<_>>().join(", "),
    ]
}

/// The word of a number, which is listed.
pub fn listed<'a>(words: &[&'a str], number: u8) -> &'a str {
    word(words, number).unwrap_or_default()
}

pub fn alignment(aligned: bool) -> &'static str {
    let alignment = match aligned {
        true => Alignment::Aligned,
        false => Alignment::NotAligned,
    };
    alignment.word()
}

/// As its line gives it.
fn identifier(own: &RowIdentifier) -> String {
    let (kind, outcome) = (listed(&KINDS, own.kind), listed(&OUTCOMES, own.outcome));
    let line = format!("{kind} {outcome} {}", domain_word(&own.domain));
    match own.kind {
        DKIM => format!("{line} {}", domain_word(&own.selector)),
        _ => line,
    }
}
