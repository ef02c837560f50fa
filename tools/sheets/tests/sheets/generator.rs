//! Generated sheets: what must hold of every run, and what they must reach.

use std::collections::{BTreeMap, BTreeSet};

use crate::octets::run;
use evaluator::book::{Book, Step};
use evaluator::domain::{without_dot, Domain};
use evaluator::message::{Identifier, Kind, Message, Outcome};
use evaluator::policy::{Mode, Settings};
use evaluator::refusal::Refusal;
use evaluator::sheet::{read, verdict, GivenAnswer, Sheet};
use evaluator::txt::{reply, Answer, Reply, Status};
use evaluator::verdict::{Alignment, DmarcResult, Verdict};
use evaluator::walk::organizational;
use sheets::generate::{hostile, ordinary, SheetKind};
use sheets::tally::tally;

const SHEETS: u64 = 1500;

/// What the sheet says of a name, in any spelling.
fn given_answer<'s, 'a>(sheet: &'s Sheet<'a>, name: &[u8]) -> Option<&'s GivenAnswer<'a>> {
    let mut answers = sheet.answers.iter();
    answers.find(|given| without_dot(given.name).eq_ignore_ascii_case(name))
}

/// The sheet's answer to a name; none on the sheet is an error.
fn answer_of<'a>(sheet: &Sheet<'a>, name: &[u8]) -> Answer<'a> {
    given_answer(sheet, name).map_or(Answer::ERROR, |given| given.answer)
}

/// Asks and answers in turn, with names as the sheet spells them, and gives the
/// names and the verdict.
fn in_turn(octets: &[u8]) -> Result<(Vec<Vec<u8>>, Verdict), Refusal> {
    let sheet = read(octets)?;
    let given = &sheet.message;
    let mut book = Book::default();
    book.open(given.author, given.existence, given.support)?;
    for given in &given.identifiers {
        book.add(given.kind, given.outcome, given.domain)?;
    }
    let mut names = Vec::new();
    let mut scratch = [0; 4096];
    loop {
        match book.next_step()? {
            Step::Verdict(verdict) => return Ok((names, verdict)),
            Step::Ask(asked) => {
                assert!(book.result().is_err(), "no verdict before the last answer");
                let answer = answer_of(&sheet, &asked.name);
                let given = given_answer(&sheet, &asked.name);
                let name = given.map_or(asked.name.as_slice(), |given| given.name);
                book.answer(name, answer, &mut scratch)?;
                names.push(asked.name);
            }
        }
    }
}

#[test]
fn the_book_asked_in_turn_gives_what_the_sheet_gives() {
    for index in 0..SHEETS {
        for octets in [ordinary(7, index), hostile(7, index)] {
            let whole = verdict(&octets);
            let turned = in_turn(&octets);
            match (whole, turned) {
                (Ok((names, verdict)), Ok((asked, turned))) => {
                    assert_eq!(verdict, turned);
                    let names: Vec<Vec<u8>> = names.into_iter().map(|asked| asked.name).collect();
                    assert_eq!(names, asked);
                }
                (whole, turned) => assert_eq!(whole.err(), turned.err()),
            }
        }
    }
}

#[test]
fn each_name_once_and_the_count_within_its_bound() {
    for index in 0..SHEETS {
        let octets = ordinary(8, index);
        let (names, verdict) = verdict(&octets).expect("an ordinary sheet");
        let distinct: BTreeSet<&[u8]> = names.iter().map(|asked| asked.name.as_slice()).collect();
        assert_eq!(distinct.len(), names.len());
        assert_eq!(verdict.asked, names.len());
        let message = read(&octets).unwrap().message.accepted().unwrap();
        let walked: BTreeSet<&[u8]> = message
            .identifiers
            .iter()
            .filter(|identifier| identifier.outcome == Outcome::Pass)
            .map(|identifier| identifier.domain.octets())
            .collect();
        assert!(names.len() <= 8 + 8 * walked.len());
        let author = names.iter().filter(|asked| asked.walk == 0).count();
        assert!((1..=8).contains(&author));
    }
}

/// The settings of the applied record.
fn applied(sheet: &Sheet, verdict: &Verdict) -> Settings {
    let name = [b"_dmarc.".as_slice(), &verdict.domain].concat();
    match reply(answer_of(sheet, &name)) {
        Reply::Record(settings) => settings,
        other => panic!("no record at {name:?}: {other:?}"),
    }
}

/// Whether a passing identifier aligns.
fn aligns(sheet: &Sheet, message: &Message, settings: &Settings, given: &Identifier) -> bool {
    let (author, domain) = (&message.author, &given.domain);
    let mode = match given.kind {
        Kind::Spf => settings.aspf,
        Kind::Dkim => settings.adkim,
    };
    let of = |domain: &Domain| {
        let (found, _) = organizational(domain, |name| Some(answer_of(sheet, name))).unwrap();
        found
    };
    domain == author || (mode == Mode::Relaxed && of(domain) == of(author))
}

#[test]
fn demand_2_pass_exactly_when_some_passing_domain_aligns() {
    let mut checked = 0;
    for index in 0..SHEETS {
        let octets = ordinary(9, index);
        let sheet = read(&octets).unwrap();
        let (names, verdict) = verdict(&octets).unwrap();
        let error = |name: &[u8]| answer_of(&sheet, name).status == Status::Error;
        let judged = !verdict.alignments.contains(&Alignment::NotJudged);
        let errors = names.iter().any(|asked| error(&asked.name));
        if errors
            || !judged
            || verdict.domain.is_empty()
            || verdict.result == DmarcResult::Permerror
        {
            continue;
        }
        let message = sheet.message.accepted().unwrap();
        let settings = applied(&sheet, &verdict);
        let mut passing = message.identifiers.iter();
        let passes = passing.any(|identifier| {
            identifier.outcome == Outcome::Pass && aligns(&sheet, &message, &settings, identifier)
        });
        assert_eq!(
            verdict.result == DmarcResult::Pass,
            passes,
            "ordinary 9 {index}"
        );
        checked += 1;
    }
    assert!(checked > 600, "{checked} sheets without errors");
}

#[test]
fn every_output_is_a_refusal_alone_or_a_whole_verdict() {
    for index in 0..SHEETS {
        let output = run(&hostile(10, index));
        let lines: Vec<&str> = output.split_terminator('\n').collect();
        assert!(output.ends_with('\n'));
        match lines.as_slice() {
            [only] => assert!(only.starts_with("refused "), "{output}"),
            [asks @ .., result, policy, disposition, asked] => {
                assert!(asks.iter().all(|line| line.starts_with("ask _dmarc.")));
                assert!(result.starts_with("result "));
                assert!(policy.starts_with("policy "));
                assert!(disposition.starts_with("disposition "));
                assert_eq!(*asked, format!("asked {}", asks.len()));
            }
            _ => panic!("neither: {output}"),
        }
    }
}

#[test]
fn the_same_seed_gives_the_same_sheets() {
    let first: Vec<Vec<u8>> = (0..50).map(|index| ordinary(3, index)).collect();
    let again: Vec<Vec<u8>> = (0..50).map(|index| ordinary(3, index)).collect();
    let other: Vec<Vec<u8>> = (0..50).map(|index| ordinary(4, index)).collect();
    assert_eq!(first, again);
    assert_ne!(first, other);
    let distinct: BTreeSet<&Vec<u8>> = first.iter().collect();
    assert_eq!(distinct.len(), 50);
}

/// What an ordinary sheet's run shows.
fn features(octets: &[u8], seen: &mut BTreeMap<String, u64>) {
    let sheet = read(octets).unwrap();
    let message = sheet.message.accepted().unwrap();
    let (names, verdict) = verdict(octets).unwrap();
    let mut note = |feature: String| *seen.entry(feature).or_default() += 1;
    let labels = message.author.label_count();
    note(format!("author of {} labels", labels.min(12)));
    note(format!("{} identifiers", message.identifiers.len()));
    note(format!("result {}", verdict.result.word()));
    note(format!("policy {}", verdict.policy.word()));
    note(format!("disposition {}", verdict.disposition.word()));
    for alignment in &verdict.alignments {
        note(format!("alignment {}", alignment.word()));
    }
    if message.author.octets().len() > 246 {
        note("author over 246".to_string());
    }
    if !verdict.domain.is_empty() {
        let settings = applied(&sheet, &verdict);
        let own = verdict.domain == message.author.octets();
        note(format!("applied record own {own} psd {:?}", settings.psd));
        note(format!("testing {}", settings.testing));
    }
    if verdict.result == DmarcResult::Pass && verdict.alignments.contains(&Alignment::Unknown) {
        note("pass beside unknown".to_string());
    }
    note(format!("{} names", names.len().div_ceil(20) * 20));
}

#[test]
fn ordinary_sheets_reach_every_case() {
    let mut seen = BTreeMap::new();
    for index in 0..4000 {
        features(&ordinary(11, index), &mut seen);
    }
    let mut wanted: Vec<String> = (1..=12).map(|n| format!("author of {n} labels")).collect();
    wanted.extend((0..=16).map(|n| format!("{n} identifiers")));
    wanted
        .extend(["none", "pass", "fail", "temperror", "permerror"].map(|w| format!("result {w}")));
    wanted.extend(["none", "quarantine", "reject", "unknown"].map(|w| format!("policy {w}")));
    wanted.extend(["none", "quarantine", "reject", "defer"].map(|w| format!("disposition {w}")));
    wanted.extend(
        ["not judged", "aligned", "not aligned", "unknown"].map(|w| format!("alignment {w}")),
    );
    for own in [true, false] {
        for psd in ["Yes", "No", "Unset"] {
            wanted.push(format!("applied record own {own} psd {psd}"));
        }
    }
    wanted.extend(
        [
            "author over 246",
            "pass beside unknown",
            "testing true",
            "120 names",
        ]
        .map(String::from),
    );
    for feature in wanted {
        let count = seen.get(&feature).copied().unwrap_or(0);
        assert!(count >= 3, "{feature}: {count}");
    }
}

#[test]
fn hostile_sheets_reach_every_refusal() {
    let tally = tally(SheetKind::Hostile, 12, 5000);
    for number in [1, 2, 3, 4, 6, 8] {
        let count = tally.refusals.get(&number).copied().unwrap_or(0);
        assert!(count > 100, "refused {number}: {count}");
    }
    for place in ["1 at 253", "3 at 255", "4 at 16", "8 at 65536", "8 at 0"] {
        assert!(tally.places.contains_key(place), "refused {place}");
    }
    assert_eq!(tally.results.len(), 5);
}
