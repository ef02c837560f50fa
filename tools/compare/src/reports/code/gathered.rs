//! What the rows are gathered in, with octets that no gathering gave.

use super::{Asked, Told};
use crate::alike::BEHIND;
use sheets::programs::lent::FILL;
use sheets::random::Random;
use waslidhaj::calls;

/// Counts that a gathering gives, and ones that none does.
const COUNTS: [usize; 6] = [0, 1, 255, 256, 257, usize::MAX];
const ROOM: usize = 2_048;

/// A report of such a value is written or refused: refused it writes nothing, and never
/// outside the lent memory or past its length.
pub fn check(asked: &Asked<'_>) -> Result<(), String> {
    let mut random = Random::of(asked.reporter.begin, asked.reporter.end);
    let mut gathered = calls::gather(asked.rows);
    if random.percent(70) {
        gathered.count = random.pick(&COUNTS);
    }
    for _ in 0..random.between(0, 40) {
        let at = random.below(gathered.octets.len());
        gathered.octets[at] = random.octet();
    }
    let mut out = [FILL; ROOM + BEHIND];
    let (lent, _) = out.split_at_mut(ROOM);
    let (lists, reporter) = (asked.lists, asked.reporter);
    let written = calls::report(asked.list, gathered, asked.numbers, lists, reporter, lent);
    let length = Told::of(written)?.0.unwrap_or(0);
    let rest = out.get(length..).unwrap_or_default();
    match length <= ROOM && rest.iter().all(|octet| *octet == FILL) {
        true => Ok(()),
        false => Err(format!("octets past a report of {length} were written")),
    }
}
