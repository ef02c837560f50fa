//! The lists of calls of address checks: what comes of those written by hand, from
//! Ask 11 of document 02 and the readings, and what the random ones reach.

use std::collections::{BTreeMap, BTreeSet};

use sheets::programs::checks::{fixed, lines, random, Call};

const SEED: u64 = 41;

/// The last verdict after each accepted start, if there is one.
fn verdicts(calls: &[Call]) -> Vec<Option<String>> {
    let mut verdicts = Vec::new();
    for line in lines(calls) {
        if line == "start accepted" {
            verdicts.push(None);
        }
        let (_, words) = line.split_once(' ').expect("two words");
        if let (Some(last), Some(verdict)) = (verdicts.last_mut(), words.strip_prefix("verdict ")) {
            *last = Some(verdict.to_string());
        }
    }
    verdicts
}

/// Checks in the order in which they stand, but for the first two, which are left.
#[test]
fn what_comes_of_the_checks_written_by_hand() {
    let no = "no count=7".to_string();
    let confirmed = "confirmed count=7".to_string();
    let replaced =
        |begin: usize, length: usize| format!("replaced begin={begin} length={length} count=7");
    let by_answers = [
        confirmed.clone(),
        no.clone(),
        no.clone(),
        confirmed.clone(),
        confirmed.clone(),
        no.clone(),
        no.clone(),
        confirmed.clone(),
        replaced(14, 24),
        replaced(19, 24),
        replaced(16, 52),
        no.clone(),
        no.clone(),
        no.clone(),
        no.clone(),
        no.clone(),
        no.clone(),
        no.clone(),
        replaced(14, 38),
        no.clone(),
        confirmed.clone(),
        confirmed.clone(),
        confirmed.clone(),
        confirmed.clone(),
        replaced(14, 51),
        replaced(14, 56),
        confirmed.clone(),
        confirmed.clone(),
        replaced(22, 24),
        replaced(14, 24),
        replaced(14, 24),
        no.clone(),
        replaced(66, 24),
        replaced(60, 24),
    ];
    let errors = (1..=7).map(|count| format!("not-known count={count}"));
    let by_walks = [
        "inside count=0",
        "inside count=0",
        "inside count=0",
        "no count=3",
        "no count=3",
        "no count=3",
        "no count=5",
        "inside count=4",
        "inside count=3",
        "inside count=3",
        "no count=4",
        "no count=4",
        "inside count=4",
        "inside count=4",
        "no count=4",
        "no count=5",
        "inside count=3",
        "no count=17",
        "no count=17",
        "no count=10",
        "inside count=2",
        "no count=4",
    ];
    let long = ["confirmed", "confirmed"].map(|word| format!("{word} count=8"));
    let mut expected: Vec<Option<String>> = vec![None, None];
    expected.extend(by_answers.into_iter().chain(errors).map(Some));
    expected.extend([no.clone(), "not-known count=7".to_string()].map(Some));
    expected.extend(by_walks.map(|words| Some(words.to_string())));
    expected.extend(long.map(Some));
    expected.extend([no.clone(), no].map(Some));
    expected.extend([None, None, None, None]);
    expected.extend([Some("no count=4".to_string()), None]);
    assert_eq!(verdicts(&fixed()), expected);
}

/// The first calls written by hand, where nothing was started.
#[test]
fn refused_starts_written_by_hand() {
    let lines = lines(&fixed());
    let begin = [
        "start refused 11 at 0",
        "start refused 11 at 0",
        "next refused 7 at 0",
        "result refused 7 at 0",
    ];
    for part in lines.chunks(4).take(9) {
        assert_eq!(part, begin);
    }
    let behind = lines.get(36..).expect("more calls");
    for part in behind.chunks(3).take(24) {
        assert_eq!(part[0], "start refused 23 at 0");
        assert!(part[1].starts_with("answer refused 5 at 0 "), "{}", part[1]);
        assert!(part[2].starts_with("answer refused 5 at 0 "), "{}", part[2]);
    }
    let long = [
        "start refused 23 at 0",
        "start accepted",
        "next ask _dmarc.a",
        "start refused 23 at 0",
        "start accepted",
        "next ask _dmarc.a",
        "start refused 11 at 0",
        "start refused 23 at 0",
        "next ask _dmarc.a",
    ];
    assert_eq!(lines[108..117], long);
}

/// The calls of so many checks of a seed.
fn checks(count: usize, seed: u64) -> Vec<Vec<Call>> {
    random(seed).take(count).collect()
}

#[test]
fn the_same_seed_gives_the_same_calls() {
    let first = checks(40, 3);
    assert!(first == checks(40, 3));
    assert!(first != checks(40, 4));
    // Fewer checks of a seed are the first of more.
    assert!(first.starts_with(&checks(20, 3)));
    assert!(first.iter().all(|calls| !calls.is_empty()));
}

/// How often each call ended in each way.
#[test]
fn every_ending_of_every_call() {
    let mut endings: BTreeMap<String, usize> = BTreeMap::new();
    for line in lines(&checks(1_000, SEED).concat()) {
        let words: Vec<&str> = line.split(' ').take(3).collect();
        let ending = match words.as_slice() {
            [call, "refused", number] => format!("{call} {number}"),
            [call, "verdict", outcome] => format!("{call} {outcome}"),
            [call, word, ..] => format!("{call} {word}"),
            _ => line.clone(),
        };
        *endings.entry(ending).or_default() += 1;
    }
    println!("{endings:?}");
    for (ending, least) in [
        ("answer 10", 200),
        ("answer 5", 500),
        ("answer 6", 200),
        ("answer accepted", 2000),
        ("next 7", 5),
        ("next ask", 2000),
        ("next confirmed", 100),
        ("next inside", 100),
        ("next no", 100),
        ("next not-known", 100),
        ("next replaced", 100),
        ("result 7", 200),
        ("result confirmed", 100),
        ("result inside", 100),
        ("result no", 100),
        ("result not-known", 100),
        ("result replaced", 100),
        ("start 11", 100),
        ("start 23", 100),
        ("start accepted", 1000),
    ] {
        let count = endings.remove(ending).unwrap_or(0);
        assert!(count >= least, "{ending}: {count}");
    }
    assert!(endings.is_empty(), "{endings:?}");
}

/// Every number of names, and confirming names up to the longest.
#[test]
fn the_numbers_of_names() {
    let calls = checks(3_000, SEED).concat();
    let counts: BTreeSet<usize> = verdicts(&calls)
        .iter()
        .flatten()
        .filter_map(|verdict| verdict.split_once("count=")?.1.parse().ok())
        .collect();
    assert_eq!(counts, (0..=17).collect());
    let lines = lines(&calls);
    let asked = lines
        .iter()
        .filter_map(|line| line.strip_prefix("next ask "));
    let lengths: BTreeSet<usize> = asked
        .filter(|name| name.contains("._report._dmarc."))
        .map(str::len)
        .collect();
    assert!(lengths.contains(&252) && lengths.contains(&253));
    assert_eq!(lengths.last(), Some(&253));
}

/// What the starts and answers have in them.
#[test]
fn the_calls_have_everything() {
    let calls = checks(3_000, SEED).concat();
    let starts: Vec<_> = calls
        .iter()
        .filter_map(|call| match call {
            Call::Start(start) => Some(start),
            _ => None,
        })
        .collect();
    assert!(starts.iter().any(|start| start.policy.ends_with(b".")));
    assert!(starts.iter().any(|start| start.entry.ends_with(b".")));
    assert!(starts.iter().any(|start| start.entry.starts_with(b" ")));
    assert!(starts.iter().any(|start| start.entry.ends_with(b"\t")));
    assert!(starts.iter().any(|start| start.entry.contains(&b',')));
    assert!(starts.iter().any(|start| start.policy.len() > 253));
    let holds = |part: &[u8]| {
        calls.iter().any(|call| match call {
            Call::Answer(given) => given.bytes.windows(part.len()).any(|own| own == part),
            _ => false,
        })
    };
    for part in [
        b"rua=".as_slice(),
        b"RUA=",
        b"rua = ",
        b"!10m",
        b"green.example",
        b"https://",
        b"v=dmarc1",
        b" ,",
        b"p=none; P=none",
    ] {
        assert!(holds(part), "{}", part.escape_ascii());
    }
    let scratches: BTreeSet<usize> = calls.iter().map(Call::lent).collect();
    for size in [0, 1, 4095, 4096, 4097, 65_535] {
        assert!(scratches.contains(&size), "{size}");
    }
}
