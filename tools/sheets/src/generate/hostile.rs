//! Faults of every kind, put into an ordinary sheet.

mod drafts;
mod octets;
mod records;

use super::draft::Draft;
use super::fill::fill;
use crate::random::Random;
use crate::written::{self, Record};
use drafts::DRAFT_FAULTS;
use evaluator::sheet::MOST_OCTETS;
pub use octets::mutated;
use octets::OCTET_FAULTS;
use records::{MARKS, RECORD_FAULTS};

/// Spoils a sheet in one way, or in a few.
pub fn spoil(random: &mut Random, mut draft: Draft) -> Vec<u8> {
    if random.below(200) == 0 {
        return large(random, &draft);
    }
    let ways = DRAFT_FAULTS.len() + RECORD_FAULTS.len() + OCTET_FAULTS.len();
    let count = random.pick(&[1, 1, 1, 1, 2, 3]);
    let mut chosen: Vec<usize> = (0..count).map(|_| random.below(ways)).collect();
    chosen.sort_unstable();
    for way in &chosen {
        if let Some(fault) = DRAFT_FAULTS.get(*way) {
            fault(random, &mut draft);
        }
    }
    let mut records = draft.records();
    for way in &chosen {
        let way = way.wrapping_sub(DRAFT_FAULTS.len());
        if let Some(fault) = RECORD_FAULTS.get(way) {
            fault(random, &mut records);
        }
    }
    let mut sheet = written::sheet(&records);
    for way in &chosen {
        let way = way.wrapping_sub(DRAFT_FAULTS.len() + RECORD_FAULTS.len());
        if let Some(fault) = OCTET_FAULTS.get(way) {
            fault(random, &mut sheet);
        }
    }
    sheet
}

/// A sheet at or over 65,536 octets.
fn large(random: &mut Random, draft: &Draft) -> Vec<u8> {
    let mut sheet = draft.octets();
    let mut number = 0;
    if random.percent(40) {
        let octets = random.pick(&[
            65_535,
            MOST_OCTETS,
            MOST_OCTETS,
            65_537,
            65_538,
            65_541,
            66_000,
        ]);
        fill(&mut sheet, octets, &mut number);
        return sheet;
    }
    let before = MOST_OCTETS - random.pick(&[0, 1, 3, 4, 5, 20, 100, 1_000]);
    fill(&mut sheet, before, &mut number);
    let mark = random.pick(MARKS);
    let room = MOST_OCTETS.saturating_sub(sheet.len() + 4);
    let body = match random.below(4) {
        0 => b"\x01\x0e_DMARC.FILL-1A".to_vec(),
        1 => vec![0; room],
        2 => vec![0; room + 1],
        _ => vec![0; random.below(2_000)],
    };
    let _ = Record { mark, body }.push(&mut sheet);
    let after = MOST_OCTETS + random.between(0, 3_000);
    fill(&mut sheet, after, &mut number);
    sheet
}
