//! Descriptions with a few octets changed.

use evaluator::sheet;
use sheets::description::{describe, read};
use sheets::generate::ordinary;
use sheets::random::Random;

/// Octets that mean something in a description.
const SIGNS: &[u8] = b"\n\r\t #\"\\+;=.:0x5 INTXT";

/// A description with up to four changes: an octet replaced, put in or taken out.
fn changed(text: &[u8], random: &mut Random) -> Vec<u8> {
    let mut octets = text.to_vec();
    for _ in 0..random.between(1, 4) {
        let at = random.below(octets.len());
        let octet = match random.percent(80) {
            true => random.pick(SIGNS),
            false => random.octet(),
        };
        match random.below(3) {
            0 => octets.insert(at, octet),
            1 => drop(octets.remove(at)),
            _ => octets[at] = octet,
        }
    }
    octets
}

/// What is read is a well-formed sheet, which its own description makes again;
/// what is not has a mistake of one of its lines.
#[test]
fn changed_descriptions_are_read_or_have_a_mistake() {
    let (mut whole, mut mistaken) = (0, 0);
    for index in 0..4_000 {
        let mut random = Random::of(47, index);
        let text = describe(&ordinary(47, index % 200));
        let text = changed(text.as_bytes(), &mut random);
        match read(&text) {
            Ok(described) => {
                whole += 1;
                assert!(sheet::read(&described.sheet).is_ok(), "{index}");
                let again = read(describe(&described.sheet).as_bytes());
                let again = again.expect("a description");
                assert_eq!(again.sheet, described.sheet, "{index}");
            }
            Err(mistake) => {
                mistaken += 1;
                let lines = text.split(|octet| *octet == b'\n').count();
                assert!((1..=lines).contains(&mistake.line), "{index}: {mistake}");
                assert!(mistake.reason.len() < 400, "{index}: {mistake}");
            }
        }
    }
    assert!(whole > 500 && mistaken > 500, "{whole} {mistaken}");
}
