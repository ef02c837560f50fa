//! "the sum of all counts equals the number of verdicts accepted since the list
//! was cleared, that number taken from the history of calls, and so each
//! disposition's total"

use super::history::Call;
use evaluator::rows::{Row, MOST_ROWS};

/// The verdicts accepted since the last accepted clearing, once there was one.
#[derive(Clone, Debug, Default)]
pub struct Sums {
    accepted: Option<Accepted>,
}

#[derive(Clone, Debug, Default)]
struct Accepted {
    all: u64,
    /// By disposition.
    each: [u64; 3],
}

impl Sums {
    /// Notes an accepted call.
    pub fn note(&mut self, call: &Call) {
        match (call, &mut self.accepted) {
            (Call::Clear(_), accepted) => *accepted = Some(Accepted::default()),
            (Call::Enter { entry, .. }, Some(accepted)) => {
                accepted.all += 1;
                let disposition = usize::from(entry.finding.disposition);
                if let Some(number) = accepted.each.get_mut(disposition) {
                    *number += 1;
                }
            }
            (Call::Enter { .. }, None) => {}
        }
    }

    /// Holds the counts of the list's rows to the numbers.
    pub fn check(&self, rows: &[Row]) -> Result<(), String> {
        let Some(accepted) = &self.accepted else {
            return Ok(());
        };
        same("all", sum(rows, |_| true), accepted.all)?;
        for (disposition, number) in (0..).zip(accepted.each) {
            let of = |row: &Row| row.seen.disposition == disposition;
            same(&format!("disposition {disposition}"), sum(rows, of), number)?;
        }
        Ok(())
    }
}

/// The sum of the counts of the list's rows that are meant.
fn sum(rows: &[Row], meant: impl Fn(&Row) -> bool) -> u64 {
    let own = rows.iter().take(MOST_ROWS);
    own.filter(|row| meant(row))
        .map(|row| u64::from(row.count))
        .sum()
}

fn same(of: &str, sum: u64, number: u64) -> Result<(), String> {
    match sum == number {
        true => Ok(()),
        false => Err(format!(
            "the counts of {of} sum up to {sum}, and {number} verdicts were accepted"
        )),
    }
}
