//! Answers in which texts have a tag twice, which are dropped before the records are
//! counted: reading 126.

use super::{records, strings, text, texts, AnswerCase};
use crate::random::Random;

/// Texts with a tag twice.
const REPEATS: [&[u8]; 6] = [
    b"v=DMARC1; p=none; p=reject",
    b"v=DMARC1; v=DMARC1; p=none",
    b"v=DMARC1; p=none; x=1; y=2; X=3",
    b"v=DMARC1; p=none; psd=y; psd=y",
    b"v=DMARC1; p=none; rua=a:b; rua=a:b",
    b"v=DMARC1;fo=1;fo=1",
];

pub fn answers() -> Vec<AnswerCase> {
    let mut answers = written();
    answers.extend((0..SEEDED).map(|index| seeded(&mut Random::of(SEED, index))));
    answers
}

fn written() -> Vec<AnswerCase> {
    let good: &[u8] = b"v=DMARC1; p=reject; t=y";
    let nearly: &[u8] = b"v=DMARC1; sp=; sp=none; p=none";
    let mut answers = Vec::new();
    for repeat in REPEATS {
        answers.extend([
            texts(&[repeat]),
            texts(&[repeat, repeat]),
            texts(&[repeat, good]),
            texts(&[good, repeat]),
            texts(&[repeat, good, repeat]),
            texts(&[good, repeat, good]),
            texts(&[nearly, repeat]),
            texts(&[good, repeat, nearly]),
            texts(&[repeat, b"junk", good, b""]),
        ]);
    }
    let repeat = text(b"v=DMARC1;p=none;p=none");
    answers.extend([
        records(&repeat.repeat(16)),
        records(&[repeat.repeat(15), text(good)].concat()),
        records(&[text(good), repeat.repeat(15)].concat()),
        records(&[repeat.repeat(7), text(good), repeat.repeat(8)].concat()),
        records(&[repeat.repeat(16), text(good)].concat()),
        // The strings of a text are joined before its tags are read.
        records(&strings(&[b"v=DMARC1; p=none; ", b"p=none"])),
        records(&strings(&[b"v=DMARC1; x", b"y=1; p=none; xy", b"=1"])),
        records(&strings(&[b"v=DMARC1; x=1; ", b"x", b"y=1; p=none"])),
        // Those of two texts are not.
        texts(&[b"v=DMARC1; p=none", b"; p=none"]),
    ]);
    answers
}

const SEEDED: u64 = 60;
const SEED: u64 = 126;

/// One to five texts, policy records, texts with a tag twice and others.
fn seeded(random: &mut Random) -> AnswerCase {
    let text = |random: &mut Random| match random.below(6) {
        0 | 1 => random.pick(&[
            b"v=DMARC1; p=none; fo=1".as_slice(),
            b"v=DMARC1; sp=; sp=reject",
            b"v=DMARC1;p=often",
        ]),
        2 => random.pick(&[b"junk".as_slice(), b"", b"p=none; p=none", b"v=DMARC; p=x"]),
        _ => random.pick(&REPEATS),
    };
    let count = random.between(1, 5);
    let chosen: Vec<&[u8]> = (0..count).map(|_| text(random)).collect();
    texts(&chosen)
}
