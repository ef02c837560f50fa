//! The check sees every rule that is broken, and the days come to it.

mod twin;

use super::check::check;
use super::code::Told;
use super::day::Day;
use super::generate::day;
use super::tally::{Tally, Writer};
use super::{compare, odd};
use crate::histories::history::Act;
use crate::wrongs::lost;
use evaluator::refusal::Refusal;
use twin::{Twin, Wrong, ALL};

const SEED: u64 = 5;
/// As many generated days find every broken rule.
const DAYS: u64 = 1_500;

#[test]
fn reports_that_keep_the_rules() {
    let line = compare(&Twin(Wrong::Nothing), 1_000, SEED).expect("agreement");
    println!("{line}");
    let (reports, rest) = line.split_once("subjects (").expect("both");
    let (subjects, _) = rest.split_once(';').expect("histories");
    let days = format!("agree on {} days: reports (", 1_000 + odd::days().len());
    assert!(reports.starts_with(&days), "{line}");
    for number in [27, 18, 28, 19, 11, 10] {
        assert!(reports.contains(&format!(" refused {number}")), "{line}");
        assert!(!reports.contains(&format!(" 0 refused {number}")), "{line}");
    }
    for number in [11, 10] {
        assert!(
            !subjects.contains(&format!(" 0 refused {number}")),
            "{line}"
        );
    }
    assert!(!line.contains("(0 written"), "{line}");
}

/// What the check says of a broken rule, if it is found on this day.
fn fault(wrong: Wrong, day: &Day) -> Option<String> {
    check(&Twin(wrong), day, &mut Tally::default()).err()
}

#[test]
fn every_broken_rule_is_found_by_the_generated_days() {
    let days: Vec<Day> = (0..DAYS).map(|index| day(SEED, index)).collect();
    let lost = lost(ALL, |wrong| {
        let mut faults = days.iter().map(|day| fault(wrong, day)).enumerate();
        let (index, report) = faults.find_map(|(index, own)| Some((index, own?)))?;
        assert!(report.contains("\n-- the day\n"), "{report}");
        Some(format!("day {index}"))
    });
    assert_eq!(lost, []);
}

#[test]
fn every_broken_rule_is_found_by_the_days_written_by_hand() {
    let days = odd::days();
    let lost = lost(ALL, |wrong| {
        let mut days = days.iter();
        let found = days.find(|(_, day)| fault(wrong, day).is_some());
        found.map(|(name, _)| name.clone())
    });
    assert_eq!(lost, []);
}

#[test]
fn there_are_more_than_a_hundred_broken_rules() {
    assert!(ALL.len() > 100, "{}", ALL.len());
}

#[test]
fn a_fault_is_reported_with_its_day() {
    let (_, plain) = odd::days().swap_remove(0);
    let longer = fault(Wrong::VersionWritten, &plain).expect("another length");
    let begin = "the report: the answers differ
-- the proved code
refused 10 at 901
-- the reference
wrote 879
-- the day
1 rows lent
";
    assert!(longer.starts_with(begin), "{longer}");
    let end = "report beside lists 0
settings p=2 sp=1 np=2 adkim=0 aspf=1 psd=0 t=0
organization 5 octets \"A & B\"
email 14 octets \"r@gate.example\"
contact 0 octets \"\"
id 2 octets \"r7\"
from 1700000000 to 1700086399
subject: receiver 12 octets \"gate.example\"
subject: domain 11 octets \"example.com\"
subject: id 2 octets \"r7\"
";
    assert!(longer.ends_with(end), "{longer}");
    let memory = fault(Wrong::NpBeforeSp, &plain).expect("other octets");
    assert!(
        memory.starts_with("the report: the lent memory differs at octet 339\n"),
        "{memory}"
    );
    let subject = fault(Wrong::SubjectIdBare, &plain).expect("another subject");
    assert!(
        subject.starts_with("the subject: the answers differ\n"),
        "{subject}"
    );
}

#[test]
fn an_answer_that_never_came() {
    let mut tally = Tally::default();
    tally.histories.histories += 7;
    let said = |tally: &Tally| tally.complete().expect_err("nothing came");
    assert_eq!(said(&tally), "no report was written in 7 days");
    tally.add(Writer::Report, Told(Ok(879)));
    assert_eq!(said(&tally), "no report was refused 27 in 7 days");
    for number in [27, 18, 28, 19, 11, 10] {
        tally.add(Writer::Report, Told(Err(Refusal::new(number, 0))));
    }
    assert_eq!(said(&tally), "no subject was written in 7 days");
    tally.add(Writer::Subject, Told(Ok(66)));
    assert_eq!(said(&tally), "no subject was refused 11 in 7 days");
}

/// What the generated days have in them.
#[test]
fn the_days_have_everything() {
    let days: Vec<Day> = (0..2_000).map(|index| day(SEED, index)).collect();
    let any = |what: &str, met: fn(&Day) -> bool| {
        assert!(days.iter().any(met), "{what}");
    };
    any("over 256 rows", |day| day.history.rows.len() > 256);
    any("a list that no call gave", |day| {
        day.history
            .acts
            .iter()
            .any(|act| matches!(act, Act::Forge(_)))
    });
    any("rows that others write", |day| day.history.others_write());
    any("rows of the calls alone", |day| !day.history.others_write());
    any("other lists", |day| day.beside > 0);
    any("a text as long as can be", |day| {
        day.reporter.email.len() == 4096
    });
    any("a text that is too long", |day| {
        day.reporter.email.len() == 4097
    });
    any("a contact", |day| !day.reporter.contact.is_empty());
    any("no contact", |day| day.reporter.contact.is_empty());
    any("an id as long as can be", |day| day.reporter.id.len() == 64);
    any("equal times", |day| day.reporter.begin == day.reporter.end);
    any("times out of order", |day| {
        day.reporter.begin > day.reporter.end
    });
    assert!(days[3] == day(SEED, 3));
}
