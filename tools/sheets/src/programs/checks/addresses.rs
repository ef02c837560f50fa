//! Policy domains and entries that a check is started with.

use super::call::StartCall;
use crate::generate::domains::{author, deep, dotted, identifier, of_length, recased};
use crate::random::Random;
use evaluator::domain::MOST_OCTETS;

/// What stands before the last `@` of an entry, after its scheme.
const LOCAL: [&[u8]; 10] = [
    b"reports",
    b"a",
    b"r",
    b"",
    b"a%20b",
    b"a;b",
    b"x@y",
    b"x@other.test?z=w",
    b"a:b/c?d#e[f]",
    b"a.b+c-d_e~f",
];
const BLANKS: [&[u8]; 4] = [b" ", b"\t", b"  ", b" \t "];
/// Domains that are near the names that are asked.
const NEAR: [(&[u8], &[u8]); 6] = [
    (b"b", b"_dmarc.b"),
    (b"_dmarc.b", b"b"),
    (b"_report._dmarc.b", b"b"),
    (b"a._report._dmarc.b", b"a"),
    (b"a", b"a._report._dmarc.b"),
    (b"_dmarc", b"_report"),
];

/// An entry of a host, in any spelling that 23 lets through.
pub fn entry(random: &mut Random, host: &[u8]) -> Vec<u8> {
    let scheme = recased(random, b"mailto:".to_vec(), 15);
    let host = spelled(random, host);
    [scheme.as_slice(), random.pick(&LOCAL), b"@", &host].concat()
}

/// A domain in any case, at times with a final dot.
pub fn spelled(random: &mut Random, domain: &[u8]) -> Vec<u8> {
    let domain = recased(random, domain.to_vec(), 15);
    dotted(random, domain, 15)
}

/// A text with blanks at either end, in so many cases of a hundred.
pub fn blanked(random: &mut Random, text: Vec<u8>, rate: usize) -> Vec<u8> {
    if !random.percent(rate) {
        return text;
    }
    match random.below(3) {
        0 => [random.pick(&BLANKS), &text].concat(),
        1 => [text.as_slice(), random.pick(&BLANKS)].concat(),
        _ => [random.pick(&BLANKS), &text, random.pick(&BLANKS)].concat(),
    }
}

/// A policy domain and a host, each without a final dot.
pub fn domains(random: &mut Random) -> (Vec<u8>, Vec<u8>) {
    match random.below(20) {
        0 | 1 => {
            let policy = author(random);
            (policy.clone(), policy)
        }
        2..=8 => {
            let policy = author(random);
            let host = identifier(random, &policy, &[]);
            (policy, host)
        }
        9..=13 => (author(random), author(random)),
        14 | 15 => near_the_limit(random),
        16 | 17 => (deep(random, 9, 0), deep(random, 9, 1)),
        18 => (deep(random, 2, 0), deep(random, 2, 1)),
        _ => {
            let (policy, host) = random.pick(&NEAR);
            (policy.to_vec(), host.to_vec())
        }
    }
}

/// A pair whose confirming name has about 253 octets.
fn near_the_limit(random: &mut Random) -> (Vec<u8>, Vec<u8>) {
    let name = random.between(MOST_OCTETS - 2, MOST_OCTETS + 2);
    let both = name.saturating_sub(evaluator::address::BETWEEN.len());
    let policy = random.between(1, both - 1);
    let labels = random.between(1, 12);
    let domain = |random: &mut Random, octets| of_length(random, labels, octets);
    (domain(random, policy), domain(random, both - policy))
}

/// A start with these domains, each in any spelling.
pub fn start(random: &mut Random, policy: &[u8], host: &[u8]) -> StartCall {
    let entry = entry(random, host);
    StartCall {
        policy: spelled(random, policy),
        entry: blanked(random, entry, 10),
    }
}
