//! The check sees every rule that is broken, and the texts come to it.

mod twin;

use super::arrival::{arrivals, cuts, halves, Act, Arrival};
use super::check::{check, check_written};
use super::code::Told;
use super::generate::text;
use super::odd::{changed, texts, PLAIN};
use super::tally::Tally;
use super::written::Written;
use super::{check_all, check_days, compare};
use crate::wrongs::lost;
use evaluator::refusal::Refusal;
use sheets::random::Random;
use twin::{Twin, Wrong, ALL};

const SEED: u64 = 5;
/// As many generated texts find every broken rule.
const TEXTS: u64 = 3_000;

#[test]
fn a_reader_that_keeps_the_rules() {
    let line = compare(&Twin(Wrong::Nothing), 1_500, SEED).expect("agreement");
    println!("{line}");
    let begin = format!("agree on {} texts and ", 1_500 + texts().len());
    assert!(line.starts_with(&begin), "{line}");
    for number in [20, 21, 22] {
        assert!(line.contains(&format!(" refused {number}")), "{line}");
        assert!(!line.contains(&format!(" 0 refused {number}")), "{line}");
    }
}

/// What the check says of a broken rule, if it is found on this text: uncut, or else as it
/// arrives in any way.
fn fault(wrong: Wrong, text: &[u8], cut: Option<Random>) -> Option<String> {
    let (code, mut tally) = (Twin(wrong), Tally::default());
    match cut {
        None => check(&code, text, &Arrival::uncut(text.len()), &mut tally).err(),
        Some(mut random) => check_all(&code, text, &mut random, &mut tally).err(),
    }
}

/// The first of these texts on which a broken rule is found, by all of them uncut first.
fn found<'t>(wrong: Wrong, texts: impl Iterator<Item = &'t [u8]> + Clone) -> Option<String> {
    for cut in [false, true] {
        for (index, text) in texts.clone().enumerate() {
            let random = cut.then(|| Random::of(SEED, index as u64));
            if let Some(report) = fault(wrong, text, random) {
                assert!(report.contains("\n-- arrives as\n"), "{report}");
                return Some(format!("text {index}, cut {cut}"));
            }
        }
    }
    None
}

#[test]
fn every_broken_rule_is_found_by_the_generated_texts() {
    let texts: Vec<Vec<u8>> = (0..TEXTS).map(generated).collect();
    let lost = lost(ALL, |wrong| found(wrong, texts.iter().map(Vec::as_slice)));
    assert_eq!(lost, []);
}

#[test]
fn every_broken_rule_is_found_by_the_texts_written_by_hand() {
    let texts = texts();
    let lost = lost(ALL, |wrong| {
        found(wrong, texts.iter().map(|(_, text)| text.as_slice()))
    });
    assert_eq!(lost, []);
}

#[test]
fn there_are_more_than_a_hundred_broken_rules() {
    assert!(ALL.len() > 100, "{}", ALL.len());
}

fn generated(index: u64) -> Vec<u8> {
    text(SEED, index).expect("a text").0
}

#[test]
fn a_fault_is_reported_with_its_text() {
    let report = fault(Wrong::CountOf31Bits, &with_count("2147483648"), None);
    let report = report.expect("a fault");
    let begin = "the answers differ
-- the proved code
refused 21 at 502
-- the reference
row of [0, 0, 0, 0, 0, 0, 0, 0, 0, 0, 255, 255, 192, 0, 2, 1] count=2147483648 disposition=0 \
dkim=true spf=false \"example.com\" [1 1 \"s1\" \"mail.example.com\"] [0 0 \"\" \
\"bounce.example.net\"]
-- of 888 octets, from 0 on
<?xml";
    assert!(report.starts_with(begin), "{report}");
    assert!(
        report.ends_with("-- arrives as\n0-888 end (2 in all)"),
        "{report}"
    );
    let late = fault(Wrong::RowAtTheNextOctet, PLAIN.as_bytes(), None).expect("a fault");
    assert!(
        late.starts_with("869 octets of the part are read, 868 by"),
        "{late}"
    );
}

fn with_count(count: &str) -> Vec<u8> {
    let count = format!("<count>{count}</count>");
    PLAIN.replace("<count>3</count>", &count).into_bytes()
}

/// The rows of a written report are held to those that were written.
#[test]
fn written_reports_read_back() {
    let (_, written) = (0..)
        .find_map(|index| {
            let (text, written) = text(SEED, index).expect("a text");
            written.map(|own| (text, own))
        })
        .expect("a written report");
    let (code, mut tally) = (Twin(Wrong::Nothing), Tally::default());
    let read = |written: &Written, tally: &mut Tally| {
        let ways = cuts(&mut Random::of(SEED, 0), written.text.len());
        check_written(&code, written, ways, tally)
    };
    assert_eq!(read(&written, &mut tally), Ok(()));
    assert_eq!(tally.written, 1);
    let mut fewer = written.clone();
    fewer.rows.pop();
    let fault = read(&fewer, &mut tally).expect_err("a row too many");
    assert!(fault.contains(" rows were written, "), "{fault}");
    let mut other = written;
    other.rows[0].count ^= 1;
    let fault = read(&other, &mut tally).expect_err("another row");
    assert!(fault.starts_with("written was row of "), "{fault}");
}

/// Days of every length are written: ones that are cut at every place, and long ones.
#[test]
fn reports_of_days() {
    let (code, mut tally) = (Twin(Wrong::Nothing), Tally::default());
    assert_eq!(check_days(&code, 20, SEED, &mut tally), Ok(()));
    println!("{tally}");
    assert!(tally.written > 100, "{tally}");
    assert!(tally.arrivals > 20_000, "{tally}");
    let fault = check_days(&Twin(Wrong::CountOf31Bits), 0, SEED, &mut tally);
    assert!(fault.expect_err("a fault").starts_with("the day "));
}

#[test]
fn an_answer_that_never_came() {
    let mut tally = Tally::default();
    let said = |tally: &Tally| tally.complete().expect_err("nothing came");
    assert_eq!(said(&tally), "no text was written");
    tally.written += 1;
    assert_eq!(said(&tally), "no text had a row");
    tally.add(1, None);
    assert_eq!(said(&tally), "no text was read whole");
    tally.add(0, Some(Ok(())));
    for number in [20, 21, 22] {
        assert_eq!(said(&tally), format!("no text was refused {number}"));
        tally.add(0, Some(Err(Refusal::new(number, 0))));
    }
    assert_eq!(tally.complete(), Ok(()));
}

/// How many of 3,000 come to each answer.
#[test]
fn the_texts_come_to_every_answer() {
    for seed in [1, SEED] {
        let mut tally = Tally::default();
        let code = Twin(Wrong::Nothing);
        for index in 0..3_000 {
            let (text, _) = text(seed, index).expect("a text");
            let arrival = Arrival::uncut(text.len());
            assert_eq!(check(&code, &text, &arrival, &mut tally), Ok(()));
        }
        println!("seed {seed}: {tally}");
        assert!(tally.whole() > 700, "{tally}");
        assert!(tally.refused(20) > 1_000, "{tally}");
        assert!(tally.refused(21) > 30, "{tally}");
        assert!(tally.refused(22) > 30, "{tally}");
    }
}

/// What the generated texts have in them.
#[test]
fn the_texts_have_everything() {
    let texts: Vec<Vec<u8>> = (0..TEXTS).map(generated).collect();
    let any = |what: &str, met: fn(&[u8]) -> bool| {
        assert!(texts.iter().any(|text| met(text)), "{what}");
    };
    let holds = |part: &'static [u8]| texts.iter().any(|text| has(text, part));
    any("an empty text", |text| text.is_empty());
    any("a long text", |text| text.len() > 100_000);
    any("over 256 records", |text| count(text, b"</record>") > 256);
    any("256 records", |text| count(text, b"</record>") == 256);
    for part in [
        b"4294967295<".as_slice(),
        b"4294967296<",
        b"18446744073709551616<",
        b"0:0:0:0:0:ffff:",
        b"&quot;",
        b"<version>",
        b"<scope>",
        b">\r\n<",
        b"</spf><spf>",
    ] {
        assert!(holds(part), "{}", part.escape_ascii());
    }
    assert!(generated(3) == generated(3));
    assert!(generated(3) != text(SEED + 1, 3).expect("a text").0);
}

fn has(text: &[u8], part: &[u8]) -> bool {
    count(text, part) > 0
}

fn count(text: &[u8], part: &[u8]) -> usize {
    text.windows(part.len()).filter(|own| *own == part).count()
}

/// Parts go on where the last one ended, up to the length; short texts come octet by octet.
#[test]
fn texts_arrive_in_parts() {
    let mut random = Random::of(SEED, 0);
    for length in [0, 1, 2, 879, 1_400, 1_401, 100_000] {
        let ways = arrivals(&mut random, length);
        let (more, plain) = ways.split_last().expect("several ways");
        for Arrival(acts) in plain {
            let (last, parts) = acts.split_last().expect("an end");
            assert_eq!(*last, Act::End);
            let end = parts.iter().fold(0, |end, act| match act {
                Act::Part(part) if part.start == end => part.end,
                other => panic!("{other:?} behind {end}"),
            });
            assert_eq!(end, length);
        }
        assert!(more.0.len() >= 3, "{more}");
        let single = plain.iter().any(|own| own.0.len() > length);
        assert_eq!(single, length <= 1_400, "{length}");
        let places = if length <= 1_400 { length + 1 } else { 0 };
        assert_eq!(halves(length).count(), places);
    }
}

/// The changed reports are of every place, and come to every answer but 21.
#[test]
fn changed_reports() {
    let texts = changed();
    let (code, mut tally) = (Twin(Wrong::Nothing), Tally::default());
    for text in texts.iter().step_by(7) {
        let arrival = Arrival::uncut(text.len());
        assert_eq!(check(&code, text, &arrival, &mut tally), Ok(()));
    }
    assert!(tally.whole() > 100, "{tally}");
    assert!(tally.refused(20) > 3_000, "{tally}");
    assert!(tally.refused(22) > 100, "{tally}");
}

#[test]
fn words_for_what_is_told() {
    let refusal = Told::Refused(Refusal::new(21, 7));
    assert_eq!(refusal.to_string(), "refused 21 at 7");
    assert_eq!(Told::More.to_string(), "accepted");
    let row = Told::Row(Box::default());
    assert!(row.to_string().starts_with("row of [0, 0, "));
}
