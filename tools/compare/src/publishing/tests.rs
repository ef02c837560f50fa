//! The check sees every rule that is broken, and the cases come to it.

pub mod twin;

use super::check::{check_text, check_writing};
use super::generate::{case, text};
use super::tally::Tally;
use super::{compare, odd};
use records::agreement::Writing;
use records::code::RecordNumbers;
use twin::{Twin, Wrong, ALL};

const SEED: u64 = 5;

#[test]
fn records_that_keep_the_rules() {
    let line = compare(&Twin(Wrong::Nothing), 2_000, SEED).expect("agreement");
    println!("{line}");
    assert!(line.starts_with("agree on "), "{line}");
    for met in [
        "written",
        "refused 15",
        "refused 16",
        "refused 10",
        "records",
        "no record",
    ] {
        assert!(
            line.contains(met) && !line.contains(&format!(" 0 {met}")),
            "{line}"
        );
    }
}

/// The first generated case on which a code is found out.
fn found(wrong: Wrong) -> Option<(u64, String)> {
    let mut tally = Tally::default();
    let code = Twin(wrong);
    (0..4_000).find_map(|index| {
        let written = check_writing(&code, &case(SEED, index).writing(), &mut tally);
        let read = check_text(&code, &text(SEED, index), &mut tally);
        Some((index, written.and(read).err()?))
    })
}

#[test]
fn every_broken_rule_is_found_by_the_generated_cases() {
    for wrong in ALL.iter().copied() {
        let (index, report) = found(wrong).unwrap_or_else(|| panic!("{wrong:?} is not found"));
        println!("{wrong:?}: case {index}");
        assert!(report.contains("\n-- the reference\n"), "{report}");
    }
}

#[test]
fn every_broken_rule_is_found_by_the_cases_written_by_hand() {
    for wrong in ALL.iter().copied() {
        let (code, mut tally) = (Twin(wrong), Tally::default());
        let mut cases = odd::cases().into_iter();
        let written = cases.any(|case| check_writing(&code, &case.writing(), &mut tally).is_err());
        let mut texts = odd::texts().into_iter();
        let read = texts.any(|text| check_text(&code, &text, &mut tally).is_err());
        assert!(written || read, "{wrong:?} is not found");
    }
}

#[test]
fn a_fault_is_reported_with_its_case() {
    let writing = Writing {
        numbers: RecordNumbers {
            p: 2,
            sp: 3,
            np: 3,
            ..RecordNumbers::default()
        },
        rua: b"a:b",
        lent: 40,
    };
    let fault = |wrong| check_writing(&Twin(wrong), &writing, &mut Tally::default());
    let end =
        "\n-- to be written\np=2 sp=3 np=3 adkim=0 aspf=0 psd=0 t=0 rua=\"a:b\", 40 octets lent";
    let expected = format!(
        "the answers differ\n-- the proved code\n28 octets written\n-- the reference\n27 octets written{end}"
    );
    assert_eq!(fault(Wrong::FinalSemicolon), Err(expected));
    let memory = fault(Wrong::WrittenPastTheEnd).expect_err("memory written");
    assert!(memory.starts_with("the lent memory differs\n-- the proved code\n\"v=DMARC1; p="));
    assert!(memory.ends_with(end), "{memory}");
    let case = |wrong| {
        check_text(
            &Twin(wrong),
            b"v=DMARC1; p=none; p=x",
            &mut Tally::default(),
        )
    };
    let expected = "the readings differ
-- the proved code
p=0 sp=0 np=0 adkim=0 aspf=0 psd=0 t=0, reports=false, rua at 0 of 0 octets
-- the reference
no record
-- the text
\"v=DMARC1; p=none; p=x\"";
    assert_eq!(case(Wrong::RepeatsRead), Err(expected.to_string()));
}

#[test]
fn an_answer_that_never_came() {
    let mut tally = Tally::default();
    let said = |tally: &Tally| tally.complete().expect_err("nothing came");
    assert_eq!(said(&tally), "no settings were written");
    tally.wrote(&Ok(Vec::new()));
    assert_eq!(said(&tally), "no text was a record");
    tally.read(true);
    assert_eq!(said(&tally), "no text was no record");
    tally.read(false);
    tally.again += 1;
    assert_eq!(said(&tally), "no settings were refused 15");
}

/// What the generated cases have in them.
#[test]
fn the_cases_have_everything() {
    let cases: Vec<_> = (0..3_000).map(|index| case(SEED, index)).collect();
    for octets in [4095, 4096, 4097] {
        assert!(cases.iter().any(|own| own.rua.len() == octets));
    }
    for listed in 0..=4 {
        assert!(cases.iter().any(|own| own.numbers.p == listed));
        assert!(cases.iter().any(|own| own.numbers.sp == listed));
        assert!(cases.iter().any(|own| own.numbers.np == listed));
    }
    assert!(cases.iter().any(|own| own.numbers.adkim > 1));
    assert!(cases.iter().any(|own| own.numbers.psd > 2));
    assert!(cases.iter().any(|own| own.numbers.t > 1));
    assert!(cases[3] == case(SEED, 3));
    assert!(text(SEED, 3) == text(SEED, 3));
}
