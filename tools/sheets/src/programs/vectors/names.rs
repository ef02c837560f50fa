//! Report file names: readings 94 to 97 and 134 to 135, and the domain rule.

use super::case::NameCase;
use super::octets::{padded, EDGES};

/// Enough for any file name.
const AMPLE: u16 = 700;
/// The longest name: two domains of 253 octets, two times of 20 digits, an id
/// of 64, four `!` and `.xml`.
const LONGEST: u16 = 253 + 253 + 20 + 20 + 64 + 4 + 4;

pub fn names() -> Vec<NameCase> {
    let mut names = plain();
    names.extend(powers_of_ten());
    names.extend(edges());
    names.extend(final_dots());
    names
}

/// The example of document 01: 53 octets.
fn sample() -> NameCase {
    NameCase {
        receiver: b"gate.example".to_vec(),
        policy_domain: b"example.com".to_vec(),
        begin: 1_700_000_000,
        end: 1_700_086_399,
        named: 1,
        id: b"r7".to_vec(),
        size: AMPLE,
    }
}

impl NameCase {
    fn receiver(self, domain: &[u8]) -> NameCase {
        let receiver = domain.to_vec();
        NameCase { receiver, ..self }
    }

    fn policy(self, domain: &[u8]) -> NameCase {
        let policy_domain = domain.to_vec();
        NameCase {
            policy_domain,
            ..self
        }
    }

    fn times(self, begin: u64, end: u64) -> NameCase {
        NameCase { begin, end, ..self }
    }

    fn id(self, id: &[u8]) -> NameCase {
        let id = id.to_vec();
        NameCase { id, ..self }
    }

    fn named(self, named: u8) -> NameCase {
        NameCase { named, ..self }
    }

    fn size(self, size: u16) -> NameCase {
        NameCase { size, ..self }
    }
}

/// So many octets in labels of 63; only the last one may be shorter.
fn domain(octets: usize) -> Vec<u8> {
    let octet = |number: usize| {
        if number.is_multiple_of(64) {
            b'.'
        } else {
            b'd'
        }
    };
    (1..=octets).map(octet).collect()
}

fn plain() -> Vec<NameCase> {
    let longest = || {
        let all = sample().receiver(&domain(253)).policy(&domain(253));
        all.times(u64::MAX, u64::MAX).id(&[b'z'; 64])
    };
    vec![
        // Document 01's example, and 97: exactly fitting, one short, none.
        sample(),
        sample().size(54),
        sample().size(53),
        sample().size(52),
        sample().size(1),
        sample().size(0),
        sample().size(65_535),
        longest().size(LONGEST),
        longest().size(LONGEST - 1),
        longest(),
        // 94: no id, which is not an empty one. Its octets are not read.
        sample().named(0),
        sample().named(0).id(b""),
        sample().named(0).id(b"!"),
        sample().named(0).id(&[b'a'; 65]),
        sample().named(0).size(50),
        sample().named(0).size(49),
        sample().named(0).size(0),
        sample().id(b""),
        sample().id(b"").size(0),
        sample().named(2),
        sample().named(255),
        sample().named(255).id(b""),
        // 95: begin after end; equal times; 0 and the most; other widths.
        sample().times(5, 5),
        sample().times(6, 5),
        sample().times(5, 6),
        sample().times(0, 0),
        sample().times(0, 1),
        sample().times(1, 0),
        sample().times(0, u64::MAX),
        sample().times(u64::MAX, 0),
        sample().times(u64::MAX, u64::MAX),
        sample().times(u64::MAX - 1, u64::MAX),
        sample().times(u64::MAX, u64::MAX - 1),
        sample().times(10, 9),
        sample().times(9, 10),
        sample().times(2, 10),
        sample().times(1 << 32, 1),
        sample().times(1, 1 << 32),
        sample().times((1 << 32) - 1, 1 << 32),
        sample().times((1 << 63) - 1, 1 << 63),
        sample().times(1 << 63, (1 << 63) - 1),
        sample().times(u64::MAX, u64::MAX).named(0).size(70),
        sample().times(u64::MAX, u64::MAX).named(0).size(69),
        // 96: the id's case is kept, its letters and digits are ASCII.
        sample().id(b"Ab9Z"),
        sample().id(b"a"),
        sample().id(b"0"),
        sample().id(b"007"),
        sample().id(&[b'a'; 63]),
        sample().id(&[b'a'; 64]),
        sample().id(&[b'a'; 65]),
        sample().id(&[b'a'; 255]),
        sample().id(&padded(b"", b'a', b"-", 64)),
        sample().id(b"-r7"),
        sample().id(b"r-7"),
        sample().id(b"r7!"),
        sample().id(b"r7.xml"),
        sample().id(b"r 7"),
        sample().id("é".as_bytes()),
        sample().id(b"r7\0"),
        // Domains are in lower case.
        sample().receiver(b"GATE.Example"),
        sample().policy(b"Example.COM"),
        sample().receiver(b"AZ-az_09").policy(b"_DMARC.Az-9"),
        sample()
            .receiver(b"GATE.EXAMPLE")
            .policy(b"EXAMPLE.COM")
            .id(b"R7")
            .size(53),
        sample()
            .receiver(b"GATE.EXAMPLE")
            .policy(b"EXAMPLE.COM")
            .id(b"R7")
            .size(52),
        // 97: a bad domain on either side is 11 at 0, whatever the place of
        // its fault, and before 10.
        sample().receiver(b""),
        sample().policy(b""),
        sample().receiver(b"").policy(b""),
        sample().receiver(b"."),
        sample().policy(b"."),
        sample().receiver(b".gate"),
        sample().policy(b".com"),
        sample().receiver(b"a..b"),
        sample().policy(b"a..b"),
        sample().receiver(b"a b"),
        sample().policy(b"a b"),
        sample().receiver("ü.de".as_bytes()),
        sample().policy("ü.de".as_bytes()),
        sample().receiver(b"good.ba!d"),
        sample().policy(b"good.ba!d"),
        sample().receiver(b"a..b").size(0),
        sample().policy(b"a..b").size(3),
        sample().times(1, 0).size(0),
        sample().id(b"r-7").size(0),
        sample().id(&[b'a'; 65]).size(0),
        sample()
            .receiver(b"a..b")
            .policy(b"")
            .times(1, 0)
            .id(b"")
            .size(0),
        // Labels of 1, 63 and 64 octets; domains of 253, 254 and 255.
        sample().receiver(b"a").policy(b"b"),
        sample()
            .receiver(b"a.b.c.d.e.f.g.h.i.j.k.l")
            .policy(b"1.2.3.4.5.6.7.8.9"),
        sample().receiver(&[b'x'; 63]),
        sample().receiver(&[b'x'; 64]),
        sample().policy(&[b'x'; 63]),
        sample().policy(&[b'x'; 64]),
        sample().policy(&padded(b"a.", b'x', b".b", 67)),
        sample().policy(&padded(b"a.", b'x', b".b", 68)),
        sample().receiver(&domain(253)),
        sample().receiver(&domain(254)),
        sample().receiver(&domain(255)),
        sample().policy(&domain(253)),
        sample().policy(&domain(254)),
        sample().policy(&domain(255)),
        sample().policy(&padded(b"", b'.', b"", 255)),
    ]
}

/// 95: times in decimal without leading zeros, at every number of digits.
fn powers_of_ten() -> Vec<NameCase> {
    let powers = (1..=19).map(|digits| 10_u64.pow(digits));
    powers
        .map(|power| sample().times(power - 1, power))
        .collect()
}

/// 10, 96: each edge octet in either domain and in the id.
fn edges() -> Vec<NameCase> {
    let mut names = Vec::new();
    for octet in EDGES {
        names.push(sample().receiver(&[b'g', *octet, b't']));
        names.push(sample().policy(&[b'e', b'.', *octet]));
        names.push(sample().id(&[b'r', *octet]));
    }
    names
}

/// 134, 135: one final dot is dropped from either domain, and no more.
fn final_dots() -> Vec<NameCase> {
    let dotted = |octets: usize| [domain(octets).as_slice(), b"."].concat();
    let both = || sample().receiver(b"GATE.example.").policy(b"Example.com.");
    let mut names = vec![
        sample().receiver(b"gate.example."),
        sample().policy(b"example.com."),
        both(),
        both().size(53),
        both().size(52),
        both().named(0).size(50),
        both().named(0).size(49),
        both().id(b"r."),
        both().times(6, 5),
        sample().receiver(b"a.").policy(b"b."),
    ];
    let texts: [&[u8]; 9] = [
        b".", b"..", b"...", b"a..", b"a.b..", b".a.", b"a..b.", b"a b.", b"a. ",
    ];
    for text in texts {
        names.push(sample().receiver(text));
        names.push(sample().policy(text));
    }
    for octets in [252, 253, 254] {
        names.push(sample().receiver(&dotted(octets)));
        names.push(sample().policy(&dotted(octets)));
        names.push(sample().receiver(&dotted(octets)).policy(&dotted(octets)));
    }
    for octets in [63, 64] {
        names.push(sample().policy(&padded(b"", b'x', b".", octets + 1)));
    }
    names
}
