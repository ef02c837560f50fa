//! Answers for a confirming name: policy records with and without rua lists, of the
//! first host and of others, and texts that are none.

use super::addresses::{entry, spelled};
use crate::generate::any_text;
use crate::generate::domains::author;
use crate::generate::texts::{encoded, junk};
use crate::random::Random;
use evaluator::txt::{texts, Status};

/// Entries that 23 stops, whatever stands after them.
const STOPPED: [&[u8]; 12] = [
    b"https://green.example/r",
    b"mailto:a@green.example!10m",
    b"mailto:a@green.example!",
    b"mailto:green.example",
    b"mailto:a@green..example",
    b"mailto:a@green.example..",
    b"mailto:a@green.example?subject=x",
    b"mailto:a@",
    b"mailto:",
    b"",
    b"a@green.example",
    b"mailto:a@green example",
];
/// What stands at the ends of an entry in a list.
const BLANKS: [&[u8]; 6] = [b"", b"", b"", b" ", b"  ", b"   "];
/// Policy records without any host.
const PLAIN: [&[u8]; 6] = [
    b"v=DMARC1",
    b"v=DMARC1;",
    b"v = DMARC1 ; p=none",
    b"V=DMARC1; p=often; psd=y",
    b"v=DMARC1; rua=",
    b"v=DMARC1; sp=; sp=none",
];
/// First parts of a policy record, and of ones that only look so.
const BEGINS: [&[u8]; 5] = [
    b"v=DMARC1;",
    b"v=DMARC1; ",
    b"V =\tDMARC1 ;  ",
    b"v=DMARC1; p=reject; x=y; ",
    b"v=DMARC1;;=; p ; rua=;",
];
const FALSE_BEGINS: [&[u8]; 6] = [
    b"v=dmarc1; ",
    b" v=DMARC1; ",
    b"v=DMARC1 x; ",
    b"v=DMARC1; p=none; P=none; ",
    b"v=DMARC1; rua=mailto:a@b; ",
    b"p=none; v=DMARC1; ",
];
const TAGS: [&[u8]; 6] = [b"rua=", b"rua=", b"RUA=", b"rua = ", b"rua\t=\t", b"ruA= "];
const ENDS: [&[u8]; 6] = [b"", b"", b";", b" ; p=none", b"  ", b"; fo=1; x"];

/// An answer for a confirming name. Where it has records it is mostly readable.
pub fn answer(random: &mut Random, policy: &[u8], host: &[u8]) -> (Status, Vec<u8>) {
    match random.below(20) {
        0 => (Status::None, Vec::new()),
        1 => (Status::Error, Vec::new()),
        2 => (Status::Records, Vec::new()),
        _ => (Status::Records, records(random, policy, host)),
    }
}

/// One text or more as records; of those that are no answer one in eight is kept.
pub fn records(random: &mut Random, policy: &[u8], host: &[u8]) -> Vec<u8> {
    let count = random.pick(&[1, 1, 1, 1, 2, 2, 3, 4, 16, 17]);
    let given: Vec<Vec<u8>> = (0..count).map(|_| text(random, policy, host)).collect();
    let bytes = encoded(random, &given);
    match texts(&bytes).is_some() || random.percent(12) {
        true => bytes,
        false => {
            let one = text(random, policy, host);
            encoded(random, &[one])
        }
    }
}

/// One text.
fn text(random: &mut Random, policy: &[u8], host: &[u8]) -> Vec<u8> {
    match random.below(20) {
        0 | 1 => random.pick(&PLAIN).to_vec(),
        2 => junk(random),
        3 => any_text(random),
        4 => {
            let list = list(random, policy, host, 0);
            tagged(random, &FALSE_BEGINS, &list)
        }
        5..=8 => {
            let list = list(random, policy, host, 35);
            tagged(random, &BEGINS, &list)
        }
        9 | 10 => {
            let list = stopped(random);
            tagged(random, &BEGINS, &list)
        }
        11 => {
            // A tab within is no octet of a value: the part is ignored.
            let mut list = list(random, policy, host, 35);
            let at = random.below(list.len());
            list.insert(at, b'\t');
            tagged(random, &BEGINS, &list)
        }
        _ => {
            let list = list(random, policy, host, 0);
            tagged(random, &BEGINS, &list)
        }
    }
}

fn tagged(random: &mut Random, begins: &[&[u8]], list: &[u8]) -> Vec<u8> {
    let (begin, tag) = (random.pick(begins), random.pick(&TAGS));
    [begin, tag, list, random.pick(&ENDS)].concat()
}

/// A list of entries: of the host, so many in a hundred of another, some that 23
/// stops.
fn list(random: &mut Random, policy: &[u8], host: &[u8], others: usize) -> Vec<u8> {
    let count = random.pick(&[1, 1, 1, 2, 2, 3, 6]);
    let one = |random: &mut Random| {
        let own = match random.below(6) {
            0 => random.pick(&STOPPED).to_vec(),
            _ if random.percent(others) => {
                let other = other_host(random, policy, host);
                entry(random, &other)
            }
            _ => entry(random, host),
        };
        [random.pick(&BLANKS), &own, random.pick(&BLANKS)].concat()
    };
    let entries: Vec<Vec<u8>> = (0..count).map(|_| one(random)).collect();
    entries.join(&b',')
}

/// Entries that 23 stops, one or more.
fn stopped(random: &mut Random) -> Vec<u8> {
    let count = random.between(1, 4);
    let entries: Vec<&[u8]> = (0..count).map(|_| random.pick(&STOPPED)).collect();
    entries.join(&b',')
}

/// A host that is not this one, though it may be near.
fn other_host(random: &mut Random, policy: &[u8], host: &[u8]) -> Vec<u8> {
    match random.below(6) {
        0 => policy.to_vec(),
        1 => [b"a.".as_slice(), host].concat(),
        2 => match host.iter().position(|octet| *octet == b'.') {
            Some(dot) => host.get(dot + 1..).unwrap_or_default().to_vec(),
            None => b"green.example".to_vec(),
        },
        3 => [host, b".x"].concat(),
        4 => author(random),
        _ => spelled(random, b"green.example"),
    }
}
