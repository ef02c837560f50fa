//! The calls of random messages: that they are those of their seed, and what
//! they reach.

use std::collections::BTreeSet;

use crate::calls::{check_adds, check_endings, check_lent, check_neighbours, made, Made};
use sheets::programs::calls::{random, Call};

const MESSAGES: usize = 700;
const SEED: u64 = 41;

/// The calls of so many messages of a seed.
fn messages(count: usize, seed: u64) -> Vec<Vec<Call>> {
    let messages: Vec<Vec<Call>> = random(seed).take(count).collect();
    assert_eq!(messages.len(), count);
    messages
}

fn calls() -> Vec<Made> {
    made(messages(MESSAGES, SEED).concat())
}

#[test]
fn the_same_seed_gives_the_same_calls() {
    let first = messages(40, 3);
    assert!(first == messages(40, 3));
    assert!(first != messages(40, 4));
    // Fewer messages of a seed are the first of more.
    assert!(first.starts_with(&messages(20, 3)));
    assert!(first.iter().all(|calls| !calls.is_empty()));
}

#[test]
fn every_ending_of_every_call() {
    let least = [
        ("add 17", 500),
        ("add 2", 50),
        ("add 3", 50),
        ("add 4", 50),
        ("add accepted", 1000),
        ("answer 10", 200),
        ("answer 5", 200),
        ("answer 6", 200),
        ("answer accepted", 2000),
        ("field 10", 100),
        ("field 7", 200),
        ("field 9", 200),
        ("field wrote", 100),
        ("finding 7", 100),
        ("finding result=0", 20),
        ("finding result=1", 100),
        ("finding result=2", 50),
        ("finding result=3", 50),
        ("finding result=4", 20),
        ("next 7", 3),
        ("next ask", 2000),
        ("next verdict", 400),
        ("open 1", 50),
        ("open 3", 50),
        ("open accepted", 400),
        ("result 7", 100),
        ("result verdict", 200),
    ];
    check_endings(&calls(), &least);
}

#[test]
fn verdicts_of_each_result_by_both_calls() {
    let calls = calls();
    for result in ["none", "pass", "fail", "temperror", "permerror"] {
        for call in ["next", "result"] {
            let begin = format!("{call} verdict {result} ");
            let found = calls.iter().filter(|made| made.1.starts_with(&begin));
            assert!(found.count() >= 20, "{begin}");
        }
    }
}

#[test]
fn lent_memory() {
    check_lent(&calls());
}

#[test]
fn identifiers() {
    let calls = calls();
    check_adds(&calls);
    check_neighbours(&calls, 5);
}

/// A message that was opened: the names it asked, and its verdict's count.
#[derive(Default)]
struct Run<'a> {
    names: Vec<&'a str>,
    count: Option<usize>,
}

/// The runs in order. Each name is asked once, and given again only before its
/// answer; a verdict's count is the number of names.
fn runs(calls: &[Made]) -> Vec<Run<'_>> {
    let mut runs: Vec<Run> = Vec::new();
    for (_, line) in calls {
        if line == "open accepted" {
            runs.push(Run::default());
        }
        let Some(run) = runs.last_mut() else {
            continue;
        };
        if let Some(name) = line.strip_prefix("next ask ") {
            assert_eq!(run.count, None, "a name after the verdict");
            if run.names.last() != Some(&name) {
                assert!(!run.names.contains(&name), "{name} twice");
                run.names.push(name);
            }
        }
        if let Some((_, count)) = line.split_once(" count=") {
            run.count = count.parse().ok();
            assert_eq!(run.count, Some(run.names.len()), "{line}");
        }
    }
    runs
}

#[test]
fn most_messages_come_to_their_verdict() {
    let calls = calls();
    let runs = runs(&calls);
    let ended = runs.iter().filter(|run| run.count.is_some()).count();
    assert!(ended * 10 >= runs.len() * 7, "{ended} of {}", runs.len());
    assert!(runs.len() - ended >= 30, "{ended} of {}", runs.len());
}

#[test]
fn verdicts_of_few_names_and_of_many() {
    let calls = calls();
    let counts: BTreeSet<usize> = runs(&calls).iter().filter_map(|run| run.count).collect();
    assert!((1..=20).all(|count| counts.contains(&count)), "{counts:?}");
    assert!(counts.last() > Some(&80), "{counts:?}");
}

/// What a new opening does to the name that was asked before it.
#[test]
fn answers_of_the_last_message() {
    let calls = calls();
    let (mut asked, mut late) = (None, 0);
    for pair in calls.windows(2) {
        let [(_, before), (call, line)] = pair else {
            continue;
        };
        if let Some(name) = before.strip_prefix("next ask ") {
            asked = Some(name);
        }
        let Call::Answer(given) = call else {
            continue;
        };
        if before == "open accepted" {
            assert!(line.starts_with("answer refused 5 at 0 "), "{line}");
            let name = given.name.as_slice();
            let own = asked.is_some_and(|asked| asked.as_bytes().eq_ignore_ascii_case(name));
            late += usize::from(own);
        }
    }
    assert!(late > 0);
}
