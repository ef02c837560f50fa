//! Domains whose labels are counted: Ask 3 of document 02, readings 127 and 128.

use crate::generate::domains::{of_length, recased};
use crate::label_shapes::{back, domain, even, front, single};
use crate::random::Random;
use evaluator::domain::{MOST_LABEL_OCTETS, MOST_OCTETS};

/// Of one octet each: 253 octets with the dots.
const MOST_LABELS: usize = 127;

pub fn domains() -> Vec<Vec<u8>> {
    let mut domains: Vec<Vec<u8>> = DOMAINS.iter().map(|text| text.to_vec()).collect();
    domains.extend((1..=MOST_LABELS).map(single));
    domains.extend(long_labels());
    domains.extend(one_long_label());
    domains.extend(longest());
    domains.extend(near_the_longest_target());
    domains.extend((1..=MOST_LABELS).map(of_labels));
    domains.extend((0..SEEDED).map(|index| seeded(&mut Random::of(SEED, index))));
    domains
}

const DOMAINS: &[&[u8]] = &[
    b"com",
    b"EXAMPLE",
    b"example.com",
    b"EXAMPLE.com",
    b"eXaMpLe.CoM",
    b"mail.example.com",
    b"_dmarc.example.com",
    b"gate.Example",
    b"xn--bcher-kva.example",
    b"a.mail.example.co.uk",
    // Labels of one kind of octet.
    b"-",
    b"_",
    b"0",
    b"-.-",
    b"_._",
    b"-.-.-.-.-.-.-.-.-",
    b"_._._._._._._._._._",
    b"0.1.2.3.4.5.6.7.8.9",
    b"127.0.0.1",
    b"--.__.-_.00",
    b"A-B_9.z.Y-.-x.w_._V",
    // Lengths that tell the labels apart.
    b"a.bb.ccc.dddd.eeeee.ffffff.ggggggg",
    b"a.bb.ccc.dddd.eeeee.ffffff.ggggggg.hhhhhhhh",
    b"a.bb.ccc.dddd.eeeee.ffffff.ggggggg.hhhhhhhh.iiiiiiiii",
    b"a.bb.ccc.dddd.eeeee.ffffff.ggggggg.hhhhhhhh.iiiiiiiii.jjjjjjjjjj",
    b"iiiiiiiii.hhhhhhhh.ggggggg.ffffff.eeeee.dddd.ccc.bb.a",
    b"a.b.c.d.e.f.g.h.test",
    b"a.b.c.d.e.f.g.h.i.j.mail.example.com",
    b"mail.a.b.c.d.e.f.g.example.com",
];

/// One label; labels of 1 and of 63 octets in turn, and beside each other.
fn long_labels() -> Vec<Vec<u8>> {
    let lengths: [&[usize]; 16] = [
        &[2],
        &[62],
        &[63],
        &[63, 1],
        &[1, 63],
        &[63, 63],
        &[1, 63, 1],
        &[63, 1, 63],
        &[1, 63, 1, 63],
        &[63, 1, 63, 1],
        &[1, 63, 1, 63, 1],
        &[63, 1, 63, 1, 63],
        &[1, 63, 1, 63, 1, 63],
        &[63, 1, 63, 1, 63, 1],
        &[1, 63, 1, 63, 1, 63, 1],
        &[63, 63, 63],
    ];
    lengths.iter().map(|lengths| domain(lengths)).collect()
}

/// Up to ten labels, each of them in turn longer than all others, which are of
/// one octet.
fn one_long_label() -> Vec<Vec<u8>> {
    let long = |labels: usize, at: usize| {
        let length = |number| if number == at { 9 } else { 1 };
        let lengths: Vec<usize> = (0..labels).map(length).collect();
        domain(&lengths)
    };
    (2..=10)
        .flat_map(|labels| (0..labels).map(move |at| long(labels, at)))
        .collect()
}

/// 253 octets in several shapes.
fn longest() -> Vec<Vec<u8>> {
    let mut domains = vec![
        domain(&[63, 1, 63, 1, 63, 1, 55]),
        domain(&[55, 1, 63, 1, 63, 1, 63]),
        domain(&[63, 61, 63, 63]),
    ];
    for labels in [4, 5, 7, 8, 9, 10, 126] {
        domains.extend([even, front, back].map(|shape| shape(labels, MOST_OCTETS)));
    }
    domains
}

/// Around the longest target that is asked, and the longest domain.
fn near_the_longest_target() -> Vec<Vec<u8>> {
    let mut domains = Vec::new();
    for octets in [245, 246, 247, 252] {
        for labels in [4, 8, 9, 123] {
            domains.push(even(labels, octets));
        }
        domains.push(front(9, octets));
        domains.push(back(9, octets));
    }
    domains
}

const SEEDED: u64 = 120;
const SEED: u64 = 127;
/// How many octets more than the least the domains of each number of labels
/// have at most.
const MOST_MORE: usize = 24;

/// A seeded domain of so many labels.
fn of_labels(labels: usize) -> Vec<u8> {
    let mut random = Random::of(SEED + 1, labels as u64);
    let more = random.between(1, MOST_MORE);
    let octets = (2 * labels - 1 + more).min(MOST_OCTETS);
    let domain = of_length(&mut random, labels, octets);
    recased(&mut random, domain, 100)
}

/// A seeded domain of a few labels of any length.
fn seeded(random: &mut Random) -> Vec<u8> {
    let labels = random.between(1, 14);
    let most = (labels * (MOST_LABEL_OCTETS + 1) - 1).min(MOST_OCTETS);
    let most = random.pick(&[most, most.min(127), most.min(60)]);
    let octets = random.between(2 * labels - 1, most);
    let domain = of_length(random, labels, octets);
    recased(random, domain, 60)
}
