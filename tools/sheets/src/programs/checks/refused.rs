//! Starts that are refused.

use super::call::StartCall;
use crate::generate::domains::{bad, with_foreign_octet};
use crate::random::Random;

/// Bad policy domains.
pub const POLICIES: [&[u8]; 9] = [
    b"", b".", b"..", b"a..b", b"a.b..", b".a", b"a b", b"*.a", b"a\x80",
];
/// Entries that 23 stops.
pub const ENTRIES: [&[u8]; 24] = [
    b"",
    b" ",
    b",",
    b"a@b.c",
    b"mailto",
    b"mailto:",
    b"mailto:a",
    b"mailto:a@",
    b"mailto:a@.",
    b"mailto:a@b..",
    b"mailto:a@b..c",
    b"mailto:a@b?subject=x",
    b"mailto:a@b.c!10m",
    b"mailto:a@b.c,",
    b",mailto:a@b.c",
    b"mailto:a,b@c.d",
    b"mailto:a@b.c,mailto:a@b.c",
    b"https://a@b.c",
    b"mailtos:a@b.c",
    b"mailto :a@b.c",
    b"mailto: a@b.c",
    b"mailto:a%4@b.c",
    b"mailto:a@b%2ec",
    b"mailto:a@[192.0.2.1]",
];

/// A start that is refused, 11 or 23.
pub fn start(random: &mut Random, good: &StartCall) -> StartCall {
    let entry = entry(random, &good.entry);
    match random.below(4) {
        0 => StartCall::new(&policy(random), &good.entry),
        // 11 before 23.
        1 => StartCall::new(&policy(random), &entry),
        _ => StartCall::new(&good.policy, &entry),
    }
}

fn policy(random: &mut Random) -> Vec<u8> {
    match random.percent(50) {
        true => random.pick(&POLICIES).to_vec(),
        false => bad(random),
    }
}

/// An entry that is refused, at times a good one with something put in or a bad
/// domain at its end.
fn entry(random: &mut Random, good: &[u8]) -> Vec<u8> {
    match random.below(6) {
        0 => [b"mailto:a@".as_slice(), &bad(random)].concat(),
        1 => [good, b"@"].concat(),
        2 => [good, b",", good].concat(),
        3 => with_foreign_octet(random, b"mailto:a@b.example".to_vec()),
        _ => random.pick(&ENTRIES).to_vec(),
    }
}
