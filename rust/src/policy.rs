//! Policy records, written and read.
//!
//! ```
//! use waslidhaj::policy::{read, write, Mode, Request, Settings};
//!
//! let settings = Settings {
//!     p: Request::Reject,
//!     adkim: Mode::Strict,
//!     ..Settings::default()
//! };
//! let mut out = [0; 100];
//! let length = write(&settings, "mailto:r@example.com", &mut out)?;
//! let text = &out[..length];
//! assert_eq!(text, b"v=DMARC1; p=reject; adkim=s; rua=mailto:r@example.com");
//! let record = read(text).expect("a policy record");
//! assert_eq!(record.settings, settings);
//! assert_eq!(record.rua, b"mailto:r@example.com");
//! assert!(record.reports);
//! assert_eq!(read(b"v=spf1 -all"), None);
//! # Ok::<(), waslidhaj::Refusal>(())
//! ```

use crate::calls;
use crate::raw;
use crate::refusal::Refusal;

/// What a record says under `p`, `sp` or `np`.
#[derive(Clone, Copy, Debug, Default, PartialEq, Eq)]
pub enum Request {
    /// None.
    None,
    /// Quarantine.
    Quarantine,
    /// Reject.
    Reject,
    /// It has no such tag.
    #[default]
    Absent,
    /// It has another value.
    Invalid,
}

/// `adkim` or `aspf`.
#[derive(Clone, Copy, Debug, Default, PartialEq, Eq)]
pub enum Mode {
    /// `r`.
    #[default]
    Relaxed,
    /// `s`.
    Strict,
}

/// `psd`.
#[derive(Clone, Copy, Debug, Default, PartialEq, Eq)]
pub enum Psd {
    /// `u`.
    #[default]
    Unset,
    /// `y`.
    Yes,
    /// `n`.
    No,
}

/// The settings of a policy record; the default is of one without any tag.
#[derive(Clone, Copy, Debug, Default, PartialEq, Eq)]
pub struct Settings {
    /// The policy of the domain itself.
    pub p: Request,
    /// The policy of its subdomains that exist.
    pub sp: Request,
    /// The policy of its subdomains that do not exist.
    pub np: Request,
    /// The mode of DKIM's alignment.
    pub adkim: Mode,
    /// The mode of SPF's alignment.
    pub aspf: Mode,
    /// Whether it is a public suffix domain.
    pub psd: Psd,
    /// Whether the policy is on trial.
    pub t: bool,
}

/// A policy record as it was read.
#[derive(Clone, Copy, Debug, PartialEq, Eq)]
pub struct Record<'a> {
    /// Its settings.
    pub settings: Settings,
    /// Whether rua has a valid entry.
    pub reports: bool,
    /// The rua text, trimmed; empty if there is none.
    pub rua: &'a [u8],
}

/// Writes a policy record from settings and a rua text, and gives its length.
/// Refused 15, 16, 10.
pub fn write(settings: &Settings, rua: impl AsRef<[u8]>, out: &mut [u8]) -> Result<usize, Refusal> {
    let written = calls::write_record(settings.numbers(), rua.as_ref(), out);
    Refusal::check(written.refusal).map(|()| written.length)
}

/// Reads a text; nothing if it is no policy record.
pub fn read(text: &[u8]) -> Option<Record<'_>> {
    let read = calls::read_record(text);
    let end = read.rua_begin.saturating_add(read.rua_length);
    read.is_record.then(|| Record {
        settings: Settings::of(read.settings),
        reports: read.reports,
        rua: text.get(read.rua_begin..end).unwrap_or_default(),
    })
}

impl Settings {
    pub(crate) fn numbers(&self) -> raw::Settings {
        raw::Settings {
            p: self.p as u8,
            sp: self.sp as u8,
            np: self.np as u8,
            adkim: self.adkim as u8,
            aspf: self.aspf as u8,
            psd: self.psd as u8,
            t: u8::from(self.t),
        }
    }

    fn of(numbers: raw::Settings) -> Settings {
        Settings {
            p: Request::of(numbers.p),
            sp: Request::of(numbers.sp),
            np: Request::of(numbers.np),
            adkim: Mode::of(numbers.adkim),
            aspf: Mode::of(numbers.aspf),
            psd: Psd::of(numbers.psd),
            t: numbers.t == 1,
        }
    }
}

impl Request {
    fn of(number: u8) -> Request {
        match number {
            0 => Request::None,
            1 => Request::Quarantine,
            2 => Request::Reject,
            3 => Request::Absent,
            _ => Request::Invalid,
        }
    }
}

impl Mode {
    fn of(number: u8) -> Mode {
        match number {
            1 => Mode::Strict,
            _ => Mode::Relaxed,
        }
    }
}

impl Psd {
    fn of(number: u8) -> Psd {
        match number {
            1 => Psd::Yes,
            2 => Psd::No,
            _ => Psd::Unset,
        }
    }
}
