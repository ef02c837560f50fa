//! Seeded days whose reports can be written.

use std::net::{IpAddr, Ipv4Addr, Ipv6Addr};

use super::{DISPOSITIONS, DKIM, SPF};
use crate::description::{domain_word, quoted, word, KINDS, OUTCOMES};
use crate::generate::domains::{author, dotted, identifier};
use crate::random::Random;
use evaluator::message::MOST_IDENTIFIERS;
use evaluator::report::MOST_ID_OCTETS;
use evaluator::rows::MOST_ROWS;

const TEXTS: [&str; 6] = [
    "Gate & Sons",
    "<a href='x'>\"b\"</a>",
    "]]>&amp;&lt;",
    " ",
    "--><!--",
    "dmarc@gate.example",
];
const TAGS: [&[&str]; 7] = [
    &["", "; sp=none", "; sp=quarantine", "; sp=Reject"],
    &["", "; np=none", "; np=reject", "; np=never"],
    &["", "; adkim=s", "; adkim=r"],
    &["", "; aspf=s", "; aspf=x"],
    &["", "; psd=y", "; psd=n"],
    &["", "; t=y", "; t=n"],
    &["", "; rua=mailto:r@example.com", "; fo=1"],
];
const POLICIES: [&str; 5] = ["p=none", "p=quarantine", "p=reject", "p=often", "x=y"];
const COUNTS: [u32; 4] = [1, 9, 1_000_000, u32::MAX];

/// The description of a day by a seed and an index.
pub fn generated(seed: u64, index: u64) -> String {
    let mut random = Random::of(seed ^ 0x6461_7973, index);
    let mut lines = vec![policy(&mut random), reporter(&mut random)];
    let rows = match random.below(100) {
        0 => MOST_ROWS,
        _ => random.between(1, 8),
    };
    lines.extend((0..rows).map(|row| row_lines(&mut random, row)));
    lines.concat()
}

fn name(random: &mut Random) -> String {
    let name = author(random);
    domain_word(&dotted(random, name, 10))
}

fn policy(random: &mut Random) -> String {
    let domain = name(random);
    let tags: String = TAGS.iter().map(|values| random.pick(values)).collect();
    let policy = random.pick(&POLICIES);
    format!("domain {domain}\nrecord \"v=DMARC1; {policy}{tags}\"\n")
}

fn reporter(random: &mut Random) -> String {
    let mut lines = String::new();
    for item in ["organization", "email", "contact"] {
        if item != "contact" || random.percent(50) {
            lines += &format!("{item} {}\n", quoted(&text(random)));
        }
    }
    let begin = random.number() >> random.between(0, 63);
    let end = begin.saturating_add(random.number() >> random.between(0, 63));
    let (receiver, id) = (name(random), id(random));
    lines + &format!("receiver {receiver}\nid {id}\nbegin {begin}\nend {end}\n")
}

/// A text of a reporter, at times as long as it may be.
fn text(random: &mut Random) -> Vec<u8> {
    let octets = match random.below(20) {
        0 => 4096,
        1..=9 => random.between(1, 40),
        _ => return random.pick(&TEXTS).as_bytes().to_vec(),
    };
    (0..octets).map(|_| random.between(32, 126) as u8).collect()
}

fn id(random: &mut Random) -> String {
    let octets = random.pick(&[1, 2, 30, MOST_ID_OCTETS]);
    let one = |random: &mut Random| random.pick(b"azAZ09mM5");
    (0..octets).map(|_| char::from(one(random))).collect()
}

/// A row, apart from the others by its source, and its identifiers.
fn row_lines(random: &mut Random, number: usize) -> String {
    let (source, count) = (source(random, number as u8), random.pick(&COUNTS));
    let disposition = random.pick(&DISPOSITIONS);
    let aligned = random.pick(&["", "aligned dkim ", "aligned spf ", "aligned dkim spf "]);
    let domain = author(random);
    let author = domain_word(&domain);
    let mut lines = format!("row {source} {count} {disposition} {aligned}author {author}\n");
    let count = random.pick(&[0, 1, 2, 3, MOST_IDENTIFIERS]);
    let spf = random.below(count + 2);
    for index in 0..count {
        let kind = if index == spf { SPF } else { DKIM };
        lines += &identifier_line(random, kind, &domain);
    }
    lines
}

fn source(random: &mut Random, last: u8) -> IpAddr {
    let octet = |random: &mut Random| random.pick(&[0, 1, 192, 255]);
    let (a, b) = (octet(random), octet(random));
    match random.below(3) {
        0 => Ipv4Addr::new(a, b, 0, last).into(),
        1 => Ipv4Addr::new(b, a, 2, last).to_ipv6_mapped().into(),
        _ => {
            let groups = [0x2001, 0xdb8, a.into(), 0, 0, b.into(), 0, last.into()];
            Ipv6Addr::from(groups).into()
        }
    }
}

fn identifier_line(random: &mut Random, kind: u8, author: &[u8]) -> String {
    let outcome = random.pick(&OUTCOMES);
    let domain = domain_word(&identifier(random, author, &[]));
    let kind_word = word(&KINDS, kind).unwrap_or_default();
    let selector = match kind {
        DKIM => format!(" {}", name(random)),
        _ => String::new(),
    };
    format!("  {kind_word} {outcome} {domain}{selector}\n")
}
