//! Reading a policy text (document 01, "Reading a policy text"; document 02, Ask 2).

pub mod entries;
pub mod parts;

use entries::{check_entry, entries};
use parts::{repeated, well_formed, Tag};

#[derive(Clone, Copy, Debug, PartialEq, Eq)]
pub enum Policy {
    None,
    Quarantine,
    Reject,
}

/// What a text says under `p`, `sp` or `np`: "Any other value ... is
/// remembered as invalid".
#[derive(Clone, Copy, Debug, Default, PartialEq, Eq)]
pub enum Request {
    #[default]
    Absent,
    Invalid,
    Valid(Policy),
}

/// "`adkim`, `aspf`: r (default) or s."
#[derive(Clone, Copy, Debug, Default, PartialEq, Eq)]
pub enum Mode {
    #[default]
    Relaxed,
    Strict,
}

/// "`psd`: y, n, u (default)."
#[derive(Clone, Copy, Debug, Default, PartialEq, Eq)]
pub enum Psd {
    Yes,
    No,
    #[default]
    Unset,
}

/// The words that a tag lists, each with what it means.
pub type Words<T> = [(&'static str, T)];

pub const POLICIES: &Words<Policy> = &[
    ("none", Policy::None),
    ("quarantine", Policy::Quarantine),
    ("reject", Policy::Reject),
];
pub const MODES: &Words<Mode> = &[("r", Mode::Relaxed), ("s", Mode::Strict)];
pub const PSDS: &Words<Psd> = &[("y", Psd::Yes), ("n", Psd::No), ("u", Psd::Unset)];
/// "`t`: y or n (default)."
pub const TESTING: &Words<bool> = &[("y", true), ("n", false)];

/// What a value means, "in either case", if it is listed.
pub fn listed<T: Copy>(words: &Words<T>, value: &[u8]) -> Option<T> {
    let own = |(word, _): &&(&str, T)| value.eq_ignore_ascii_case(word.as_bytes());
    words.iter().find(own).map(|(_, meant)| *meant)
}

/// The word of what is meant.
pub fn word<T: Copy + PartialEq>(words: &Words<T>, meant: T) -> &'static str {
    let row = words.iter().find(|(_, own)| *own == meant);
    row.map_or("", |(word, _)| word)
}

impl Policy {
    pub fn word(self) -> &'static str {
        word(POLICIES, self)
    }
}

/// The settings of a policy record; the default is of one without any tag.
#[derive(Clone, Copy, Debug, Default, PartialEq, Eq)]
pub struct Settings {
    pub p: Request,
    pub sp: Request,
    pub np: Request,
    pub adkim: Mode,
    pub aspf: Mode,
    pub psd: Psd,
    pub testing: bool,
    /// Whether `rua` has a valid entry.
    pub rua_valid: bool,
}

/// The policies of a usable record.
#[derive(Clone, Copy, Debug, PartialEq, Eq)]
pub struct Usable {
    pub p: Policy,
    pub sp: Option<Policy>,
    pub np: Option<Policy>,
}

impl Settings {
    /// "Usable means `p` is valid and `sp`, `np` are absent or valid."
    pub fn usable(&self) -> Option<Usable> {
        Some(Usable {
            p: self.p.policy()??,
            sp: self.sp.policy()?,
            np: self.np.policy()?,
        })
    }
}

impl Request {
    /// The policy, or that there is none; nothing if it is invalid.
    fn policy(self) -> Option<Option<Policy>> {
        match self {
            Request::Absent => Some(None),
            Request::Valid(policy) => Some(Some(policy)),
            Request::Invalid => None,
        }
    }
}

/// A policy text's settings, or nothing if "it is no policy record".
pub fn read(text: &[u8]) -> Option<Settings> {
    let tags = tags(text)?;
    let value = |name: &[u8]| named(&tags, name).map(|tag| tag.value);
    Some(Settings {
        p: request(value(b"p")),
        sp: request(value(b"sp")),
        np: request(value(b"np")),
        adkim: or_default(MODES, value(b"adkim")),
        aspf: or_default(MODES, value(b"aspf")),
        psd: or_default(PSDS, value(b"psd")),
        testing: or_default(TESTING, value(b"t")),
        rua_valid: value(b"rua").is_some_and(|rua| !valid_entries(rua).is_empty()),
    })
}

/// Offset and length of "the rua text as a part of the caller's own text,
/// trimmed; empty if absent" (and for a text that is no policy record).
pub fn rua_part(text: &[u8]) -> (usize, usize) {
    let tags = tags(text).unwrap_or_default();
    named(&tags, b"rua").map_or((0, 0), |tag| (tag.place, tag.value.len()))
}

/// The rua text itself.
pub fn rua_text(text: &[u8]) -> &[u8] {
    let (offset, length) = rua_part(text);
    text.get(offset..offset + length).unwrap_or_default()
}

/// The first name, as it is spelled there, that a well-formed part has again, if
/// the text would be a policy record but for that.
pub fn repeated_name(text: &[u8]) -> Option<&[u8]> {
    repeated(&well_formed(text)?)
}

/// The valid entries of a rua text.
pub fn valid_entries(rua: &[u8]) -> Vec<&[u8]> {
    let valid = |entry: &&[u8]| check_entry(entry).is_ok();
    entries(rua).filter(valid).collect()
}

/// The tags of a policy record, or nothing if it is none: "a text in which any
/// tag name occurs twice among its well-formed parts ... is no policy record".
fn tags(text: &[u8]) -> Option<Vec<Tag<'_>>> {
    well_formed(text).filter(|tags| repeated(tags).is_none())
}

/// The tag of a name, "in either case".
fn named<'t, 'a>(tags: &'t [Tag<'a>], name: &[u8]) -> Option<&'t Tag<'a>> {
    tags.iter().find(|tag| tag.name.eq_ignore_ascii_case(name))
}

fn request(value: Option<&[u8]>) -> Request {
    let judged = |value: &[u8]| listed(POLICIES, value).map_or(Request::Invalid, Request::Valid);
    value.map_or(Request::Absent, judged)
}

/// "of the others, the default holds"
fn or_default<T: Copy + Default>(words: &Words<T>, value: Option<&[u8]>) -> T {
    let meant = value.and_then(|value| listed(words, value));
    meant.unwrap_or_default()
}
