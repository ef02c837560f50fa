//! The messages for measuring time: how many names each asks.

use evaluator::txt::Status;
use sheets::programs::calls::{lines, Call};
use sheets::programs::timing::{message, IDENTIFIERS, WALKS};

#[test]
fn every_walk_is_of_full_length() {
    for identifiers in IDENTIFIERS {
        for walk in WALKS {
            let calls = message(identifiers, walk);
            let words: Vec<&str> = calls.iter().map(Call::word).collect();
            let names = (identifiers + 1) * walk;
            let added = vec!["add"; identifiers];
            let turns = ["next", "answer"].repeat(names);
            assert_eq!(words, [vec!["open"], added, turns, vec!["next"]].concat());
            let lines = lines(&calls);
            assert!(!lines.iter().any(|line| line.contains("refused")));
            let verdict = lines.last().expect("the verdict");
            assert!(verdict.starts_with("next verdict fail policy=reject "));
            assert!(verdict.ends_with(&format!(" count={names}")), "{verdict}");
        }
    }
}

/// The author's own name alone has a record.
#[test]
fn one_record() {
    let calls = message(16, 8);
    let records = calls.iter().filter_map(|call| match call {
        Call::Answer(given) if given.status == Status::Records => Some(given.name.as_slice()),
        _ => None,
    });
    let records: Vec<&[u8]> = records.collect();
    assert_eq!(records, [b"_dmarc.a.b.c.d.e.f.g.top0".as_slice()]);
}
