//! Lists that no call gave.

use super::{entry, of, rows, seen, Named, DOMAIN};
use crate::histories::history::{forged, History};

pub fn histories() -> Vec<Named> {
    vec![
        ("lists cleared by any octet", flags()),
        ("lists of any length", lengths()),
        ("lists with domains of any octets", domains()),
    ]
}

fn flags() -> History {
    let mut history = rows(&[0; 3]);
    for cleared in [0, 1, 2, 7, 128, 255] {
        history.forge(forged(cleared, DOMAIN, 11));
        history.enter(entry(0));
        history.clear(b"..");
        history.enter(entry(1));
    }
    for cleared in [0, 7] {
        history.forge(forged(cleared, DOMAIN, 11));
        history.clear(b"EXAMPLE.org");
        history.enter(entry(0));
    }
    history
}

/// Of 253 octets, each length, and as many of them entered.
fn lengths() -> History {
    let mut history = rows(&[0; 3]);
    let octets: Vec<u8> = b"abcdefgh.".iter().copied().cycle().take(253).collect();
    for length in [0_u16, 1, 8, 9, 10, 252, 253, 254, 255, 256, 300, 65_535] {
        history.forge(forged(1, &octets, length));
        let length = usize::from(length).min(253);
        for near in [length.saturating_sub(1), length, length + 1] {
            let own = octets.get(..near).unwrap_or(&octets);
            history.enter(of(seen(0), own));
            history.enter(of(seen(0), &[own, b"."].concat()));
        }
    }
    history.clear(b"short");
    history.enter(of(seen(0), b"short"));
    history
}

/// Domains that no clearing gives: each entered as it is, in another case, with a
/// final dot more and with one fewer.
fn domains() -> History {
    let mut history = rows(&[0; 3]);
    let octets: [&[u8]; 9] = [
        b"Example.COM",
        b"example.com.",
        b"example.com..",
        b".",
        b"..",
        b"a b",
        b"\0\xff",
        b"[{@`",
        b"\xc3\x9f.com",
    ];
    for own in octets {
        history.forge(forged(1, own, own.len() as u16));
        let fewer = own.strip_suffix(b".").unwrap_or(own);
        let flipped: Vec<u8> = own.iter().map(|octet| octet ^ 0x20).collect();
        let others: [&[u8]; 6] = [
            own,
            &own.to_ascii_uppercase(),
            &own.to_ascii_lowercase(),
            &flipped,
            fewer,
            &[own, b"."].concat(),
        ];
        for other in others {
            history.enter(of(seen(0), other));
        }
    }
    history
}
