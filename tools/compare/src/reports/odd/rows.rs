//! Rows: dispositions and flags, sources, counts, and how many there are.

use super::{each, put, row, Named};
use evaluator::rows::Row;

const MAPPED: [u8; 12] = [0, 0, 0, 0, 0, 0, 0, 0, 0, 0, 255, 255];
const OCTETS: [u8; 7] = [0, 1, 2, 3, 7, 128, 255];

pub fn days() -> Vec<Named> {
    let mut days = each("dispositions and flags", evaluated(), |day, row| {
        put(day, &[row])
    });
    days.extend(each("sources", sources(), |day, source| {
        let mut own = row(1);
        own.seen.source = source;
        put(day, &[own]);
    }));
    let counts = [
        1,
        9,
        10,
        99,
        100,
        65_535,
        65_536,
        1_000_000_000,
        u32::MAX - 1,
        u32::MAX,
    ];
    days.extend(each("counts", counts, |day, count| put(day, &[row(count)])));
    days.extend(each("rows", many(), |day, rows| put(day, &rows)));
    days
}

/// Every disposition with every pair of flags.
fn evaluated() -> Vec<Row> {
    let mut rows = Vec::new();
    for disposition in OCTETS {
        for dkim in OCTETS {
            for spf in [0, 1, 200] {
                let mut own = row(1);
                own.seen.disposition = disposition;
                (own.seen.dkim, own.seen.spf) = (dkim, spf);
                own.seen.spare = dkim ^ 255;
                rows.push(own);
            }
        }
    }
    rows
}

/// A mapped address, and each that differs from it in one bit of what stands before; one
/// octet or group at each of its limits.
fn sources() -> Vec<[u8; 16]> {
    let mapped = |last: [u8; 4]| {
        let mut source = [0; 16];
        for (octet, own) in source.iter_mut().zip(MAPPED.into_iter().chain(last)) {
            *octet = own;
        }
        source
    };
    let mut sources = vec![
        [0; 16],
        [255; 16],
        [1; 16],
        mapped([0; 4]),
        mapped([255; 4]),
    ];
    for bit in 0..96 {
        let mut source = mapped([192, 0, 2, 1]);
        if let Some(octet) = source.get_mut(bit / 8) {
            *octet ^= 1 << (bit % 8);
        }
        sources.push(source);
    }
    for octet in [1, 9, 10, 99, 100, 101, 199, 200, 254] {
        sources.push(mapped([octet, 0, octet, 10]));
    }
    for group in [1_u16, 9, 10, 15, 16, 255, 256, 4095, 4096, 43_981] {
        for at in 0..8 {
            let mut source = [0; 16];
            source
                .iter_mut()
                .skip(2 * at)
                .zip(group.to_be_bytes())
                .for_each(|(own, octet)| *own = octet);
            sources.push(source);
        }
    }
    sources
}

/// Rows in any order, some without a count, equal ones, and more than are the list's.
fn many() -> Vec<Vec<Row>> {
    let numbered = |number: u32| {
        let mut own = row(number);
        own.seen.source[12..].copy_from_slice(&number.reverse_bits().to_le_bytes());
        own
    };
    let count = |counts: &[u32]| counts.iter().map(|count| numbered(*count)).collect();
    let mut many: Vec<Vec<Row>> = vec![
        count(&[]),
        count(&[0]),
        count(&[0, 0, 5]),
        count(&[5, 0, 7, 0]),
        count(&[3, 1, 2, 1, 3, 3]),
    ];
    for lent in [255, 256, 257, 300] {
        many.push((1..=lent).map(numbered).collect());
        let mut last = vec![row(0); lent as usize];
        if let Some(own) = last.last_mut() {
            own.count = 1;
        }
        many.push(last);
    }
    let mut past = vec![row(0); 256];
    past.extend([row(1), row(2)]);
    many.push(past);
    many
}
