//! Ask 5 of document 02: final dots change nothing of what an ordinary sheet gives.

use crate::octets::{an, au, id, run};
use evaluator::domain::without_dot;
use evaluator::sheet::{read, Sheet};
use sheets::generate::ordinary;
use sheets::written::status_number;

const SEED: u64 = 5;

/// A sheet again, each domain and name changed.
fn respelled(sheet: &Sheet, change: impl Fn(&[u8]) -> Vec<u8>) -> Vec<u8> {
    let message = &sheet.message;
    let author = change(message.author);
    let mut octets = au(message.existence, message.support, &author);
    for given in &message.identifiers {
        octets.extend(id(given.kind, given.outcome, &change(given.domain)));
    }
    for given in &sheet.answers {
        let status = status_number(given.answer.status);
        octets.extend(an(status, &change(given.name), given.answer.bytes));
    }
    octets
}

#[test]
fn without_any_and_with_all() {
    let (mut plainer, mut longer) = (0, 0);
    for index in 0..1_000 {
        let octets = ordinary(SEED, index);
        let sheet = read(&octets).expect("a sheet");
        let same = respelled(&sheet, <[u8]>::to_vec);
        assert!(same == octets);
        let plain = respelled(&sheet, |domain| without_dot(domain).to_vec());
        let dotted = respelled(&sheet, |domain| [without_dot(domain), b"."].concat());
        plainer += usize::from(plain != octets);
        assert_eq!(run(&plain), run(&octets), "index {index}");
        // A sheet near the limit has no room for the dots.
        if dotted.len() <= 65_536 {
            assert_eq!(run(&dotted), run(&octets), "index {index}");
            longer += 1;
        }
    }
    assert!(plainer > 300 && longer > 900, "{plainer} {longer}");
}
