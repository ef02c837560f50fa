//! The check sees every rule that is broken, and the histories come to it.

pub mod twin;

use super::agreement::check;
use super::generate::history;
use super::history::{forged, Act, Call, History};
use super::sums::Sums;
use super::tally::Tally;
use super::{compare, odd};
use crate::beside::Beside;
use crate::wrongs::lost;
use evaluator::rows::{Entry, Finding, Row, Seen};
use twin::{Twin, Wrong, ALL};

const SEED: u64 = 5;

#[test]
fn rows_that_keep_the_rules() {
    let line = compare(&Twin(Wrong::Nothing), 1_000, SEED).expect("agreement");
    assert!(line.starts_with("agree on 1032 histories, "), "{line}");
    for number in [11, 12, 13, 14, 27, 28] {
        assert!(line.contains(&format!(" refused {number}")), "{line}");
        assert!(!line.contains(&format!(" 0 refused {number}")), "{line}");
    }
}

/// The first of some histories on which a code is found out, and its report.
fn found<N>(wrong: Wrong, histories: &[(N, History)]) -> Option<(&N, String)> {
    let mut tally = Tally::default();
    let mut checked = histories.iter();
    checked
        .find_map(|(name, history)| Some((name, check(&Twin(wrong), history, &mut tally).err()?)))
}

#[test]
fn every_broken_rule_is_found_by_the_generated_histories() {
    let histories: Vec<_> = (0..2_000)
        .map(|index| (index, history(SEED, index)))
        .collect();
    let lost = lost(ALL, |wrong| {
        let (index, report) = found(wrong, &histories)?;
        assert!(report.contains("\n-- the history\n"), "{report}");
        Some(index.to_string())
    });
    assert_eq!(lost, []);
}

#[test]
fn every_broken_rule_is_found_by_the_histories_written_by_hand() {
    let histories = odd::histories();
    let lost = lost(ALL, |wrong| Some(found(wrong, &histories)?.0.to_string()));
    assert_eq!(lost, []);
}

/// A fail of example.com.
fn entry() -> Entry {
    Entry {
        source: [1; 16],
        finding: Finding {
            result: 2,
            disposition: 1,
            domain: b"example.com".to_vec(),
            ..Finding::default()
        },
        author: 0,
        set: 1,
    }
}

/// A call that enters it.
fn enter() -> Call {
    let entry = entry();
    Call::Enter { entry, beside: 0 }
}

#[test]
fn a_fault_is_reported_with_its_history() {
    let mut beside = Beside::default();
    beside.author(b"a");
    beside.set(&[]);
    beside.set(&[]);
    let mut history = History {
        rows: vec![Row::default(); 3],
        beside: vec![beside],
        ..History::default()
    };
    history.forge(forged(0, &[b'x'; 253], 9));
    history.clear(b"Example.com");
    history.enter(entry());
    history.enter(entry());
    let report = check(&Twin(Wrong::RaisedByTwo), &history, &mut Tally::default());
    let source = "01".repeat(16);
    let numbers = format!("disposition=1 dkim=0 spf=0 author=0 set=1 source={source}");
    let expected = format!(
        "row 0 differs
-- the proved code
count=2 {numbers} spare=0
-- the reference
count=1 {numbers} spare=0
-- the history
3 rows lent
  rows 0 to 2: count=0 disposition=0 dkim=0 spf=0 author=0 set=0 source={} spare=0
lists 0: authors 5 octets \"AU\\x00\\x01a\", sets 8 octets \"ST\\x00\\x00ST\\x00\\x00\"
the list is written: cleared=0 length=9 \"{}\"
clear \"Example.com\"
enter result=2 {numbers} \"example.com\" lists=0
",
        "00".repeat(16),
        "x".repeat(253)
    );
    assert_eq!(report.err(), Some(expected));
}

#[test]
fn an_answer_that_never_came() {
    let mut tally = Tally::default();
    tally.histories += 7;
    let said = |tally: &Tally| tally.complete().expect_err("nothing came");
    assert_eq!(said(&tally), "no clearing was accepted in 7 histories");
    tally.add(&Call::Clear(Vec::new()), Ok(()));
    assert_eq!(said(&tally), "no entry was accepted in 7 histories");
    tally.add(&enter(), Ok(()));
    assert_eq!(said(&tally), "no call was refused 11 in 7 histories");
}

/// A row of this disposition.
fn row(disposition: u8, count: u32) -> Row {
    let seen = Seen {
        disposition,
        ..Seen::default()
    };
    Row { seen, count }
}

#[test]
fn the_sums_are_of_the_calls_alone() {
    let mut sums = Sums::default();
    // Before the first clearing the rows may hold anything.
    assert_eq!(sums.check(&[row(1, 9)]), Ok(()));
    sums.note(&Call::Clear(Vec::new()));
    sums.note(&enter());
    sums.note(&enter());
    assert_eq!(sums.check(&[row(1, 1), row(7, 0), row(1, 1)]), Ok(()));
    let past = [vec![row(1, 2)], vec![row(0, 0); 255], vec![row(1, 1)]].concat();
    assert_eq!(sums.check(&past), Ok(()));
    let said = |rows: &[Row]| sums.check(rows).expect_err("another sum");
    let all = "the counts of all sum up to 3, and 2 verdicts were accepted";
    assert_eq!(said(&[row(1, 3)]), all);
    let each = "the counts of disposition 0 sum up to 1, and 0 verdicts were accepted";
    assert_eq!(said(&[row(1, 1), row(0, 1)]), each);
    sums.note(&Call::Clear(Vec::new()));
    assert_eq!(sums.check(&[row(1, 0)]), Ok(()));
}

/// Whether a domain ends in these dots, and in no more.
fn ends_in(domain: &[u8], dots: &str) -> bool {
    let front = domain.strip_suffix(dots.as_bytes());
    front.is_some_and(|front| !front.is_empty() && !front.ends_with(b"."))
}

/// What the generated histories have in them.
#[test]
fn the_histories_have_everything() {
    let histories: Vec<History> = (0..1_000).map(|index| history(SEED, index)).collect();
    for lent in [0, 1, 2, 3, 8, 255, 256, 257, 260] {
        let of = histories
            .iter()
            .filter(|history| history.rows.len() == lent);
        assert!(of.clone().any(|history| history.others_write()) || lent == 0);
        assert!(of.clone().any(|history| !history.others_write()), "{lent}");
    }
    let twice = |history: &History| {
        let clears = |act: &Act| matches!(act, Act::Call(Call::Clear(_)));
        history.acts.windows(2).any(|pair| pair.iter().all(clears))
    };
    assert!(histories.iter().any(twice));
    let uncleared =
        |history: &History| matches!(history.acts.first(), Some(Act::Call(Call::Enter { .. })));
    assert!(histories.iter().any(uncleared));
    for dots in [".", ".."] {
        let of = |clears: bool| {
            let ends = |act: &Act| match act {
                Act::Call(Call::Clear(domain)) => clears && ends_in(domain, dots),
                Act::Call(Call::Enter { entry, .. }) => {
                    !clears && ends_in(&entry.finding.domain, dots)
                }
                _ => false,
            };
            histories
                .iter()
                .filter(|own| own.acts.iter().any(ends))
                .count()
        };
        assert!(
            of(true) > 20 && of(false) > 20,
            "{} {}",
            of(true),
            of(false)
        );
    }
    assert!(histories[3] == history(SEED, 3));
}

/// What they have since a row has two numbers.
#[test]
fn the_histories_have_lists_and_any_octets() {
    let histories: Vec<History> = (0..1_000).map(|index| history(SEED, index)).collect();
    let acts = || histories.iter().flat_map(|history| &history.acts);
    let entries = || {
        acts().filter_map(|act| match act {
            Act::Call(Call::Enter { entry, beside }) => Some((entry, *beside)),
            _ => None,
        })
    };
    let rows = || histories.iter().flat_map(|history| &history.rows);
    assert!(entries().any(|(entry, _)| entry.finding.dkim > 1));
    assert!(entries().any(|(entry, _)| entry.finding.spf > 1));
    assert!(entries().any(|(entry, _)| entry.author > 2));
    assert!(entries().any(|(entry, _)| entry.set > 3));
    assert!((0..4).all(|number| entries().any(|(_, beside)| beside == number)));
    assert!(rows().any(|row| row.seen.dkim > 1 && row.seen.spare > 0));
    assert!(rows().any(|row| row.seen.author > 255));
    let lists = || {
        acts().filter_map(|act| match act {
            Act::Forge(list) => Some(list),
            _ => None,
        })
    };
    assert!(lists().any(|list| list.cleared == 0));
    assert!(lists().any(|list| list.cleared > 1));
    assert!(lists().any(|list| list.length > 253));
}
