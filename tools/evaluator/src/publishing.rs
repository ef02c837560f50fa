//! Ask 4 of document 02: writing policy records.

use crate::policy::entries::{check_entry, entries, EntryFault};
use crate::policy::parts::{blank, printing};
use crate::policy::{word, Policy, Settings, Usable, Words, MODES, PSDS, TESTING};
use crate::refusal::Refusal;
use crate::report::lend;

/// "over 4,096 octets"
pub const MOST_RUA_OCTETS: usize = 4096;

/// What refusal 16 has against a rua text.
#[derive(Clone, Copy, Debug, PartialEq, Eq)]
pub enum RuaFault<'a> {
    TooLong(usize),
    BlankFirst,
    BlankLast,
    /// The first `;`.
    Semicolon {
        place: usize,
    },
    /// The first octet that is not one of 32 to 126.
    Outside {
        octet: u8,
        place: usize,
    },
    /// An entry by its number from 1.
    Entry {
        number: usize,
        entry: &'a [u8],
        fault: EntryFault,
    },
}

/// Writes a policy record from settings and a rua text, which alone says whether
/// there is a valid entry. "Refusals: 15 `p` absent or a policy setting invalid;
/// 16 ...; order 15, 16, 10."
pub fn write_record(settings: &Settings, rua: &[u8], out: &mut [u8]) -> Result<usize, Refusal> {
    let usable = settings.usable().ok_or(Refusal::new(15, 0))?;
    if !rua_faults(rua).is_empty() {
        return Err(Refusal::new(16, 0));
    }
    lend(&record_text(&usable, settings, rua), out)
}

/// All that refusal 16 has against a rua text: one "that is not empty and has an
/// entry that is not valid, a `;`, an octet outside 32 to 126, a blank at either
/// end or over 4,096 octets".
pub fn rua_faults(rua: &[u8]) -> Vec<RuaFault<'_>> {
    let mut faults = Vec::new();
    if rua.is_empty() {
        return faults;
    }
    if rua.len() > MOST_RUA_OCTETS {
        faults.push(RuaFault::TooLong(rua.len()));
    }
    if rua.first().copied().is_some_and(blank) {
        faults.push(RuaFault::BlankFirst);
    }
    if rua.last().copied().is_some_and(blank) {
        faults.push(RuaFault::BlankLast);
    }
    let semicolon = rua.iter().position(|octet| *octet == b';');
    faults.extend(semicolon.map(|place| RuaFault::Semicolon { place }));
    let mut numbered = rua.iter().copied().enumerate();
    let outside = numbered.find(|(_, octet)| !printing(octet));
    faults.extend(outside.map(|(place, octet)| RuaFault::Outside { octet, place }));
    faults.extend((1..).zip(entries(rua)).filter_map(entry_fault));
    faults
}

fn entry_fault((number, entry): (usize, &[u8])) -> Option<RuaFault<'_>> {
    let fault = check_entry(entry).err()?;
    Some(RuaFault::Entry {
        number,
        entry,
        fault,
    })
}

/// "`v=DMARC1`, then p, sp, np, adkim, aspf, psd, t, rua in that order, parted by
/// `; `, a tag left out when it is absent or at its default, p always written"
fn record_text(usable: &Usable, settings: &Settings, rua: &[u8]) -> Vec<u8> {
    let words = [
        ("v", Some("DMARC1")),
        ("p", Some(usable.p.word())),
        ("sp", usable.sp.map(Policy::word)),
        ("np", usable.np.map(Policy::word)),
        ("adkim", unless_default(MODES, settings.adkim)),
        ("aspf", unless_default(MODES, settings.aspf)),
        ("psd", unless_default(PSDS, settings.psd)),
        ("t", unless_default(TESTING, settings.testing)),
    ];
    let mut tags: Vec<Vec<u8>> = Vec::new();
    for (name, value) in words {
        tags.extend(value.map(|value| format!("{name}={value}").into_bytes()));
    }
    if !rua.is_empty() {
        tags.push([b"rua=", rua].concat());
    }
    tags.join(b"; ".as_slice())
}

fn unless_default<T: Copy + Default + PartialEq>(
    words: &Words<T>,
    meant: T,
) -> Option<&'static str> {
    (meant != T::default()).then(|| word(words, meant))
}
