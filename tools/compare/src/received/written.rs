//! Reports that Ask 9 writes, with the rows that are to be read from them.

use super::code::{kind_number, outcome_number, Row};
use crate::beside::Member;
use crate::histories::agreement;
use crate::histories::tally::Tally;
use crate::histories::Proved;
use crate::reports::{asked, in_c, inputs, Day};
use evaluator::aggregate::{text, Inputs};
use evaluator::domain::without_dot;
use evaluator::lists::{self, Meant};
use evaluator::message::Kind;

/// A report and its rows.
#[derive(Clone, Debug, Default, PartialEq, Eq)]
pub struct Written {
    pub text: Vec<u8>,
    pub rows: Vec<Row>,
}

impl Written {
    /// The report of a day as the proved code writes it, if it can be written.
    pub fn of(day: &Day) -> Result<Option<Written>, String> {
        let left = agreement::check(&Proved, &day.history, &mut Tally::default())?;
        let beside = day.lists();
        let inputs = inputs(day, &left, &beside);
        let Ok(expected) = text(&inputs) else {
            return Ok(None);
        };
        let mut text = vec![0; expected.len()];
        in_c(&asked(day, &left, &beside), &mut text);
        let rows = rows(&inputs);
        match text == expected {
            true => Ok(Some(Written { text, rows })),
            false => Err(format!("another report is written\n-- the day\n{day}")),
        }
    }
}

/// "one record element per row with a count, rows and identifiers of a kind in list order"
fn rows(inputs: &Inputs) -> Vec<Row> {
    let listed = inputs.lists.read();
    let own = inputs.rows.iter().take(256).filter(|row| row.count > 0);
    let read = own.filter_map(|row| {
        let meant: Meant = listed.meant(&row.seen)?;
        let of = |kind: Kind| meant.set.iter().filter(move |own| own.kind == kind);
        Some(Row {
            source: row.seen.source,
            count: row.count,
            // A number that is not listed is reported as none.
            disposition: Some(row.seen.disposition)
                .filter(|own| *own < 3)
                .unwrap_or(0),
            dkim: row.seen.dkim != 0,
            spf: row.seen.spf != 0,
            author: spelled(meant.author),
            identifiers: of(Kind::Dkim).chain(of(Kind::Spf)).map(member).collect(),
        })
    });
    read.collect()
}

fn spelled(name: &[u8]) -> Vec<u8> {
    without_dot(name).to_ascii_lowercase()
}

/// "SPF without selector"
fn member(own: &lists::Member<'_>) -> Member {
    let selector = match own.kind {
        Kind::Dkim => own.selector,
        Kind::Spf => b"",
    };
    Member {
        kind: kind_number(own.kind),
        outcome: outcome_number(own.outcome),
        selector: spelled(selector),
        domain: spelled(own.domain),
    }
}
