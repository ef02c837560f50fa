//! The code that is held to the second evaluator, and its values in the second
//! evaluator's.

use evaluator::policy::{Mode, Policy, Psd, Request, Settings};
use evaluator::refusal::Refusal;
use waslidhaj::{calls, raw};

pub use waslidhaj::raw::{RecordRead, Settings as RecordNumbers, Written};

/// A writer and a reader of policy records.
pub trait Code {
    fn write(&self, numbers: RecordNumbers, rua: &[u8], out: &mut [u8]) -> Written;
    fn read(&self, text: &[u8]) -> RecordRead;
}

/// The proved code.
pub struct Proved;

impl Code for Proved {
    fn write(&self, numbers: RecordNumbers, rua: &[u8], out: &mut [u8]) -> Written {
        calls::write_record(numbers, rua, out)
    }

    fn read(&self, text: &[u8]) -> RecordRead {
        calls::read_record(text)
    }
}

/// Number 0 is no refusal.
pub fn accepted(refusal: raw::Refusal) -> Result<(), Refusal> {
    match refusal.number {
        0 => Ok(()),
        number => Err(Refusal::new(number, refusal.place)),
    }
}

const REQUESTS: [Request; 5] = [
    Request::Valid(Policy::None),
    Request::Valid(Policy::Quarantine),
    Request::Valid(Policy::Reject),
    Request::Absent,
    Request::Invalid,
];
const MODES: [Mode; 2] = [Mode::Relaxed, Mode::Strict];
const PSDS: [Psd; 3] = [Psd::Unset, Psd::Yes, Psd::No];
const TESTING: [bool; 2] = [false, true];

/// What a number means, and what an unlisted one does.
fn meant<T: Copy>(list: &[T], number: u8, other: T) -> T {
    list.get(usize::from(number)).copied().unwrap_or(other)
}

/// The settings of any numbers; of rua it is told whether it has a valid entry.
pub fn settings(numbers: RecordNumbers, rua_valid: bool) -> Settings {
    let request = |number| meant(&REQUESTS, number, Request::Invalid);
    let mode = |number| meant(&MODES, number, Mode::Relaxed);
    Settings {
        p: request(numbers.p),
        sp: request(numbers.sp),
        np: request(numbers.np),
        adkim: mode(numbers.adkim),
        aspf: mode(numbers.aspf),
        psd: meant(&PSDS, numbers.psd, Psd::Unset),
        testing: meant(&TESTING, numbers.t, false),
        rua_valid,
    }
}

fn number<T: PartialEq>(list: &[T], meant: &T) -> u8 {
    let mut numbered = (0..).zip(list);
    let row = numbered.find(|(_, own)| *own == meant);
    row.map_or(u8::MAX, |(number, _)| number)
}

/// The numbers of settings, as the reader gives them.
pub fn numbers(settings: &Settings) -> RecordNumbers {
    RecordNumbers {
        p: number(&REQUESTS, &settings.p),
        sp: number(&REQUESTS, &settings.sp),
        np: number(&REQUESTS, &settings.np),
        adkim: number(&MODES, &settings.adkim),
        aspf: number(&MODES, &settings.aspf),
        psd: number(&PSDS, &settings.psd),
        t: number(&TESTING, &settings.testing),
    }
}
