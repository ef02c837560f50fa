//! The check sees every rule that is broken, and the fields come to it.

pub mod twin;

use super::check::{check, check_written};
use super::generate::field;
use super::tally::Tally;
use super::{compare, odd, Given};
use evaluator::field::read_field;
use evaluator::refusal::Refusal;
use evaluator::report::identity_alignment;
use records::field::code::Read;
use twin::{Twin, Wrong, ALL};

const SEED: u64 = 5;

fn reader(wrong: Wrong) -> impl Fn(&[u8]) -> Read {
    move |text| Twin(wrong).read(text)
}

/// The second evaluator's writer.
fn writer(given: Given) -> Result<Vec<u8>, String> {
    Ok(identity_alignment(&given.judged()))
}

#[test]
fn fields_that_keep_the_rules() {
    let line = compare(reader(Wrong::Nothing), writer, 20_000, SEED).expect("agreement");
    println!("{line}");
    assert!(line.starts_with("agree on "), "{line}");
    assert!(line.contains(" fields (8 that both write, "), "{line}");
    assert!(
        line.contains(&format!("and 20000 of seed {SEED}): ")),
        "{line}"
    );
}

/// The first generated field on which a reader is found out.
fn found(wrong: Wrong) -> Option<(u64, String)> {
    let mut tally = Tally::default();
    let reader = reader(wrong);
    (0..4_000).find_map(|index| {
        let checked = check(&reader, &field(SEED, index), &mut tally);
        Some((index, checked.err()?))
    })
}

#[test]
fn every_broken_rule_is_found_by_the_generated_fields() {
    for wrong in ALL.iter().copied() {
        let (index, report) = found(wrong).unwrap_or_else(|| panic!("{wrong:?} is not found"));
        println!("{wrong:?}: field {index}");
        assert!(report.contains("\n-- the reference\n"), "{report}");
    }
}

#[test]
fn every_broken_rule_is_found_by_the_fields_written_by_hand() {
    let fields = odd::fields();
    for wrong in ALL.iter().copied() {
        let (reader, mut tally) = (reader(wrong), Tally::default());
        let mut fields = fields.iter();
        let seen = fields.any(|text| check(&reader, text, &mut tally).is_err());
        assert!(seen, "{wrong:?} is not found");
    }
}

#[test]
fn a_fault_is_reported_with_its_field() {
    let text = b"Identity-Alignment: spf,\tspf\r\n";
    let fault = check(&reader(Wrong::RepeatAtItsEnd), text, &mut Tally::default());
    let expected = "the readings differ
-- the proved code
refused 26 at 28
-- the reference
refused 26 at 25
-- the field
Identity-Alignment: spf,\\tspf\\r\\n";
    assert_eq!(fault, Err(expected.to_string()));
    let line = compare(reader(Wrong::RepeatsRead), writer, 0, SEED);
    let line = line.expect_err("a fault");
    assert!(line.starts_with("a field written by hand: the readings differ\n"));
    // The fields by hand do not have this one.
    let odd = |text: &[u8]| match text.len() > 100 {
        true => Err(Refusal::new(24, 0)),
        false => read_field(text),
    };
    let line = compare(odd, writer, 1_000, SEED).expect_err("a fault");
    assert!(line.starts_with("a field, seed 5, index "), "{line}");
}

/// Every field that is written reads back, and a writer that does not is seen.
#[test]
fn fields_that_are_written() {
    let all = Given::all();
    assert_eq!(all.len(), 8);
    let mut tally = Tally::default();
    for given in all.iter().copied() {
        assert_eq!(
            check_written(&read_field, &writer, given, &mut tally),
            Ok(())
        );
    }
    let words = "8 read (none 3, dkim 2, spf 2, both 1), 0 refused 24, 0 refused 25, 0 refused 26";
    assert_eq!(tally.to_string(), words);
    let given = Given {
        dkim: Some(false),
        spf: Some(true),
    };
    let other = |_: Given| Ok(b"Identity-Alignment: spf\r\n".to_vec());
    let expected = "\"Identity-Alignment: spf\\x0d\\x0a\" is written, and \
                    \"Identity-Alignment: dkim\\x0d\\x0a\" by the reference";
    let checked = check_written(&read_field, &other, given, &mut tally);
    assert_eq!(checked, Err(expected.to_string()));
    let refused = |_: Given| Err("refused 9 at 0".to_string());
    let line = compare(read_field, refused, 0, SEED);
    let expected = "the field of Given { dkim: None, spf: Some(true) }: refused 9 at 0";
    assert_eq!(line, Err(expected.to_string()));
}

#[test]
fn an_answer_that_never_came() {
    let mut tally = Tally::default();
    let said = |tally: &Tally| tally.complete().expect_err("an answer is missing");
    assert_eq!(said(&tally), "no field was read as none");
    for (value, next) in [
        ("none", "read as dkim"),
        ("dkim", "read as spf"),
        ("spf", "read as both"),
        ("dkim,spf", "refused 24"),
        ("", "refused 25"),
        ("(((((((((", "refused 26"),
    ] {
        tally.add(&read_field(
            format!("Identity-Alignment:{value}\r\n").as_bytes(),
        ));
        assert_eq!(said(&tally), format!("no field was {next}"));
    }
    tally.add(&read_field(b"Identity-Alignment:spf,spf"));
    assert_eq!(tally.complete(), Ok(()));
    assert_eq!(tally.fields(), 7);
}

/// How many of 20,000 come to each answer.
#[test]
fn the_fields_come_to_every_answer() {
    for seed in [1, SEED] {
        let mut tally = Tally::default();
        for index in 0..20_000 {
            tally.add(&read_field(&field(seed, index)));
        }
        println!("seed {seed}: {tally}");
        assert!(tally.read() >= 4_000, "{tally}");
        assert!(tally.refused(24) >= 4_000, "{tally}");
        assert!(tally.refused(25) >= 1_500, "{tally}");
        assert!(tally.refused(26) >= 1_500, "{tally}");
    }
}

/// What the generated fields have in them.
#[test]
fn the_fields_have_everything() {
    let fields: Vec<Vec<u8>> = (0..20_000).map(|index| field(SEED, index)).collect();
    for octet in 0..=255 {
        assert!(fields.iter().any(|text| text.contains(&octet)), "{octet}");
    }
    assert!(fields.iter().any(|text| text.len() > 4_000));
    assert!(fields.iter().any(|text| text.is_empty()));
    let holds = |text: &[u8], part: &[u8]| text.windows(part.len()).any(|own| own == part);
    for part in [
        b"\\(".as_slice(),
        b"\\)",
        b"\\\\",
        b"\r\n \r\n ",
        b"\r\n\r\n",
        b"t :",
        b"t\t:",
        b"DKIM",
        b"none,",
        b"identity-alignment",
        b"IDENTITY-ALIGNMENT",
    ] {
        assert!(
            fields.iter().any(|text| holds(text, part)),
            "{}",
            part.escape_ascii()
        );
    }
    assert!(field(SEED, 3) == field(SEED, 3));
    assert!(field(SEED, 3) != field(SEED + 1, 3));
}
