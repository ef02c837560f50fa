//! Faults of a sheet's octets.

// The faults of one list share one form, whether or not they change the length.
#![allow(clippy::ptr_arg)]

use crate::random::Random;

/// One that stands here twice comes twice as often.
pub const OCTET_FAULTS: &[fn(&mut Random, &mut Vec<u8>)] = &[
    length_past_end,
    octets_left_over,
    truncated,
    truncated,
    mutated,
    mutated,
    mutated,
    random_octets,
];

/// A record's length raised, so that it takes in its followers or the end.
fn length_past_end(random: &mut Random, sheet: &mut Vec<u8>) {
    let mut places = vec![0];
    while let Some(place) = places.last().copied() {
        let Some([_, _, high, low]) = sheet.get(place..).and_then(|rest| rest.first_chunk()) else {
            break;
        };
        places.push(place + 4 + usize::from(u16::from_be_bytes([*high, *low])));
    }
    let last = places.len().saturating_sub(2);
    let at = if random.percent(60) {
        last
    } else {
        random.below(last + 1)
    };
    let place = places.get(at).copied().unwrap_or(0);
    if let Some([high, low]) = sheet
        .get_mut(place + 2..)
        .and_then(|rest| rest.first_chunk_mut())
    {
        let length = u16::from_be_bytes([*high, *low]);
        let more = random.pick(&[1, 2, 4, 300, 65_000]);
        [*high, *low] = length.saturating_add(more).to_be_bytes();
    }
}

fn octets_left_over(random: &mut Random, sheet: &mut Vec<u8>) {
    let count = random.between(1, 6);
    for _ in 0..count {
        sheet.push(random.pick(&[0, b'A', b'N', 255]));
    }
}

fn truncated(random: &mut Random, sheet: &mut Vec<u8>) {
    let length = random.below(sheet.len());
    sheet.truncate(length);
}

/// A few octets flipped, put in, taken out, or a slice twice.
pub fn mutated(random: &mut Random, sheet: &mut Vec<u8>) {
    for _ in 0..random.between(1, 4) {
        let at = random.below(sheet.len());
        let until = (at + random.between(1, 40)).min(sheet.len());
        match random.below(5) {
            0 => {
                if let Some(octet) = sheet.get_mut(at) {
                    *octet ^= 1 << random.below(8);
                }
            }
            1 => sheet.insert(at, random.octet()),
            2 => drop(sheet.drain(at..until)),
            3 => {
                let slice = sheet.get(at..until).unwrap_or_default().to_vec();
                sheet.splice(until..until, slice);
            }
            _ => {
                if let Some(octet) = sheet.get_mut(at) {
                    *octet = random.octet();
                }
            }
        }
    }
}

fn random_octets(random: &mut Random, sheet: &mut Vec<u8>) {
    let length = random.pick(&[0, 0, 1, 2, 3, 4, 5, 6, 20, 60]);
    *sheet = (0..length).map(|_| random.octet()).collect();
    if random.percent(50) {
        sheet.splice(0..0, *b"AU\0\x04\x01\x01a");
    }
}

#[cfg(test)]
mod tests {
    use super::mutated;
    use crate::random::Random;
    use std::cmp::Ordering;

    #[test]
    fn mutations_change_cut_and_insert() {
        let sheet: Vec<u8> = (0..=255).collect();
        let (mut changed, mut cut, mut inserted) = (0, 0, 0);
        for index in 0..200 {
            let mut own = sheet.clone();
            mutated(&mut Random::of(1, index), &mut own);
            match own.len().cmp(&sheet.len()) {
                Ordering::Less => cut += 1,
                Ordering::Greater => inserted += 1,
                Ordering::Equal => changed += usize::from(own != sheet),
            }
        }
        assert!(changed > 10 && cut > 10 && inserted > 10);
    }
}
