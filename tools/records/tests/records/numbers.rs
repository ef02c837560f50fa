//! Settings by numbers, and back.

use evaluator::policy::{Mode, Policy, Psd, Request, Settings};
use evaluator::refusal::Refusal;
use records::code::{accepted, numbers, settings, RecordNumbers};
use waslidhaj::raw;

#[test]
fn listed_numbers() {
    let reject = Settings {
        p: Request::Valid(Policy::Reject),
        sp: Request::Valid(Policy::None),
        np: Request::Valid(Policy::Quarantine),
        adkim: Mode::Strict,
        aspf: Mode::Strict,
        psd: Psd::No,
        testing: true,
        rua_valid: true,
    };
    let given = RecordNumbers {
        p: 2,
        sp: 0,
        np: 1,
        adkim: 1,
        aspf: 1,
        psd: 2,
        t: 1,
    };
    assert_eq!(settings(given, true), reject);
    assert_eq!(numbers(&reject), given);
    let defaults = RecordNumbers {
        p: 3,
        sp: 3,
        np: 3,
        ..RecordNumbers::default()
    };
    assert_eq!(settings(defaults, false), Settings::default());
    assert_eq!(numbers(&Settings::default()), defaults);
    let yes = RecordNumbers { psd: 1, ..defaults };
    assert_eq!(settings(yes, false).psd, Psd::Yes);
}

/// Each number of one tag, and what the reader would give for it.
#[test]
fn unlisted_numbers() {
    for number in 0..=u8::MAX {
        let all = RecordNumbers {
            p: number,
            sp: number,
            np: number,
            adkim: number,
            aspf: number,
            psd: number,
            t: number,
        };
        let request = number.min(4);
        let two = u8::from(number == 1);
        let psd = if number == 2 { 2 } else { two };
        let given = RecordNumbers {
            p: request,
            sp: request,
            np: request,
            adkim: two,
            aspf: two,
            psd,
            t: two,
        };
        assert_eq!(numbers(&settings(all, false)), given, "{number}");
    }
}

#[test]
fn refusals() {
    let refusal = |number, place| raw::Refusal { number, place };
    assert_eq!(accepted(refusal(0, 0)), Ok(()));
    assert_eq!(accepted(refusal(10, 16)), Err(Refusal::new(10, 16)));
}
