//! The cases come to every rule that is broken.

use super::{compare, proved_name};
use crate::calls::tests::twin::{Twin, Wrong};
use crate::publishing::tests::twin::{Twin as Records, Wrong as WrongRecords};
use evaluator::report;
use sheets::programs::vectors::NameCase;
use waslidhaj::raw::{Refusal, Written};

/// File names that keep the rules, but for what is changed.
fn name(given: &NameCase, out: &mut [u8]) -> Written {
    match report::file_name(&given.parts(), out) {
        Ok(length) => Written {
            length,
            ..Written::default()
        },
        Err(refusal) => Written {
            refusal: Refusal {
                number: refusal.number,
                place: refusal.place,
            },
            length: 0,
        },
    }
}

fn compared(wrong: Wrong, records: WrongRecords) -> Result<String, String> {
    compare(&Twin::new(wrong), &Records(records), name)
}

#[test]
fn code_that_keeps_the_rules() {
    let line = compared(Wrong::Nothing, WrongRecords::Nothing).expect("agreement");
    assert!(line.starts_with("agree on 2302 policy texts ("), "{line}");
    assert!(line.contains(" 160 fields, 521 domains ("), "{line}");
}

#[test]
fn calls_that_break_a_rule() {
    let found = [
        Wrong::TimeoutIsNone,
        Wrong::UnreadableIsNone,
        Wrong::KeepsARefusedAnswer,
        Wrong::ScratchBeforeReading,
        Wrong::NoneNeedsNoScratch,
        Wrong::BytesBesideNoneAreRead,
        Wrong::TextsInReverse,
        Wrong::WritesPastTheTexts,
        Wrong::SeventeenRecords,
        Wrong::DomainIsTheAuthors,
        Wrong::FieldWithoutIdentifiers,
        Wrong::FieldNeedsOneMore,
        Wrong::FieldCutOff,
        Wrong::SpfBeforeDkim,
    ];
    for wrong in found {
        let fault = compared(wrong, WrongRecords::Nothing);
        assert!(fault.is_err(), "{wrong:?} is not found");
    }
}

#[test]
fn readers_that_break_a_rule() {
    let found = [
        WrongRecords::InvalidReadAsAbsent,
        WrongRecords::RepeatsRead,
        WrongRecords::RuaWithABlank,
        WrongRecords::ReportsByRuaAlone,
        WrongRecords::PsdReadAsU,
    ];
    for wrong in found {
        let fault = compared(Wrong::Nothing, wrong).expect_err("another reading");
        assert!(fault.starts_with("the readings differ\n"), "{fault}");
    }
}

/// A change of a file name that was written.
type Change = fn(&NameCase, &mut [u8], Written) -> Written;

#[test]
fn file_names_that_break_a_rule() {
    let changes: [Change; 4] = [
        |_, out, written| {
            out.iter_mut().skip(written.length).for_each(|o| *o = 0);
            written
        },
        |given, out, written| match given.named {
            // The id is read where none is given.
            0 => name(
                &NameCase {
                    named: 1,
                    ..given.clone()
                },
                out,
            ),
            _ => written,
        },
        |_, _, written| Written {
            length: written.length + usize::from(written.refusal.number == 10),
            ..written
        },
        |_, out, written| {
            out.make_ascii_uppercase();
            written
        },
    ];
    for change in changes {
        let changed = |given: &NameCase, out: &mut [u8]| {
            let written = name(given, out);
            change(given, out, written)
        };
        let (calls, records) = (Twin::new(Wrong::Nothing), Records(WrongRecords::Nothing));
        let fault = compare(&calls, &records, changed).expect_err("another name");
        assert!(fault.starts_with("a file name differs\n"), "{fault}");
    }
}

#[test]
fn the_proved_file_names() {
    let (calls, records) = (Twin::new(Wrong::Nothing), Records(WrongRecords::Nothing));
    let line = compare(&calls, &records, proved_name);
    assert!(line.is_ok(), "{line:?}");
}
