//! The list's domain and the published policy.

use super::{each, put_domain, Named};
use crate::domains::{good, spelled};
use crate::histories::history::forged;
use records::code::RecordNumbers;

pub fn days() -> Vec<Named> {
    let mut days = each("settings", settings(), |day, numbers| day.numbers = numbers);
    days.extend(each("lists cleared for a domain", good(), |day, domain| {
        day.history.clear(&domain.to_ascii_uppercase());
        day.history.write(0, super::row(1));
    }));
    let mut domains = spelled();
    domains.retain(|domain| domain.len() <= 253);
    days.extend(each("domains of lists", domains, |day, domain| {
        put_domain(day, &domain);
    }));
    days.extend(each("lists", lists(), |day, (cleared, length)| {
        let domain = b"Example.com.".iter().copied().cycle().take(253);
        let domain: Vec<u8> = domain.collect();
        day.history.forge(forged(cleared, &domain, length));
    }));
    days
}

/// Each number at each tag.
fn settings() -> Vec<RecordNumbers> {
    let own = RecordNumbers {
        p: 1,
        sp: 3,
        np: 3,
        ..RecordNumbers::default()
    };
    let mut settings = Vec::new();
    for n in [0, 1, 2, 3, 4, 5, 127, 128, 255] {
        settings.extend([
            RecordNumbers { p: n, ..own },
            RecordNumbers { sp: n, ..own },
            RecordNumbers { np: n, ..own },
            RecordNumbers {
                p: n,
                sp: 2,
                np: 0,
                ..own
            },
            RecordNumbers { adkim: n, ..own },
            RecordNumbers { aspf: n, ..own },
            RecordNumbers { psd: n, ..own },
            RecordNumbers { t: n, ..own },
            // Not usable: the other tags stay.
            RecordNumbers {
                p: 4,
                adkim: n,
                aspf: 1,
                t: n,
                ..own
            },
        ]);
    }
    settings
}

/// What a list has for its flag and its length.
fn lists() -> Vec<(u8, u16)> {
    let lengths = [0, 1, 7, 8, 11, 12, 13, 252, 253, 254, 256, 267, u16::MAX];
    let of = |cleared: u8| lengths.map(|length| (cleared, length));
    [0, 1, 2, 128, 255].into_iter().flat_map(of).collect()
}
