//! Writing a record: settings chosen by words such as `p=reject`, and what is
//! wrong with them.

use std::collections::HashSet;

use crate::agreement::{write, Writing, ROOM};
use crate::code::{numbers, Code};
use crate::words::differing;
use evaluator::policy::{listed, Request, Settings, Words, MODES, POLICIES, PSDS, TESTING};
use evaluator::publishing::{rua_faults, RuaFault, MOST_RUA_OCTETS};
use evaluator::refusal::Refusal;
use sheets::description::quoted;
use sheets::policy_words::{entry_words, list, not_listed, octet_words};

const TAGS: &str = "the tags are p, sp, np, adkim, aspf, psd, t, rua";

/// Settings and a rua text.
#[derive(Clone, Debug, Default, PartialEq, Eq)]
pub struct Chosen {
    pub settings: Settings,
    pub rua: Vec<u8>,
}

/// The record of the words, once both writers agree on it; the error says what is
/// wrong, a line for each mistake.
pub fn record(code: &impl Code, words: &[Vec<u8>]) -> Result<Vec<u8>, String> {
    let chosen = chosen(words).map_err(|mistakes| mistakes.join("\n"))?;
    let writing = Writing {
        numbers: numbers(&chosen.settings),
        rua: &chosen.rua,
        lent: ROOM,
    };
    let written = write(code, &writing).map_err(differing)?;
    written.map_err(|refusal| refusal_words(refusal, &chosen.rua).join("\n"))
}

/// What the words choose, or all mistakes in them.
pub fn chosen(words: &[Vec<u8>]) -> Result<Chosen, Vec<String>> {
    let mut chosen = Chosen::default();
    let mut seen = HashSet::new();
    let mut mistakes = Vec::new();
    for word in words {
        mistakes.extend(chosen.take(word, &mut seen).err());
    }
    match mistakes.is_empty() {
        true => Ok(chosen),
        false => Err(mistakes),
    }
}

impl Chosen {
    fn take(&mut self, word: &[u8], seen: &mut HashSet<Vec<u8>>) -> Result<(), String> {
        let Some(equals) = word.iter().position(|octet| *octet == b'=') else {
            let form = "a tag and its value are written as in p=reject";
            return Err(format!("{} has no `=`; {form}", quoted(word)));
        };
        let (name, value) = word.split_at(equals);
        let name = name.to_ascii_lowercase();
        let value = value.strip_prefix(b"=").unwrap_or_default();
        let set = self.set(&name, value);
        match seen.insert(name.clone()) {
            true => set,
            false => Err(format!("tag {} is given twice", shown_name(&name))),
        }
    }

    fn set(&mut self, name: &[u8], value: &[u8]) -> Result<(), String> {
        let settings = &mut self.settings;
        match name {
            b"p" => settings.p = Request::Valid(one_of("p", POLICIES, value)?),
            b"sp" => settings.sp = Request::Valid(one_of("sp", POLICIES, value)?),
            b"np" => settings.np = Request::Valid(one_of("np", POLICIES, value)?),
            b"adkim" => settings.adkim = one_of("adkim", MODES, value)?,
            b"aspf" => settings.aspf = one_of("aspf", MODES, value)?,
            b"psd" => settings.psd = one_of("psd", PSDS, value)?,
            b"t" => settings.testing = one_of("t", TESTING, value)?,
            b"rua" if value.is_empty() => {
                return Err("rua: it is empty; leave it out if no reports are wanted".to_string());
            }
            b"rua" => self.rua = value.to_vec(),
            b"v" => return Err("v is not chosen: every record begins with v=DMARC1".to_string()),
            _ => return Err(format!("unknown tag {}; {TAGS}", shown_name(name))),
        }
        Ok(())
    }
}

/// A name as it is, or in quotes if it is no word of letters.
fn shown_name(name: &[u8]) -> String {
    match !name.is_empty() && name.iter().all(u8::is_ascii_alphabetic) {
        true => String::from_utf8_lossy(name).into_owned(),
        false => quoted(name),
    }
}

fn one_of<T: Copy>(name: &str, words: &Words<T>, value: &[u8]) -> Result<T, String> {
    let meant = listed(words, value);
    meant.ok_or_else(|| format!("{name}: {}", not_listed(words, value)))
}

/// A refusal in words, a line for each reason.
fn refusal_words(refusal: Refusal, rua: &[u8]) -> Vec<String> {
    match refusal.number {
        15 => vec![format!("p is missing; it is one of {}", list(POLICIES))],
        16 => rua_faults(rua).iter().map(rua_words).collect(),
        _ => vec![refusal.to_string()],
    }
}

fn rua_words(fault: &RuaFault) -> String {
    let why = match *fault {
        RuaFault::TooLong(octets) => format!("{octets} octets, and {MOST_RUA_OCTETS} at the most"),
        RuaFault::BlankFirst => "it begins with a blank".to_string(),
        RuaFault::BlankLast => "it ends with a blank".to_string(),
        RuaFault::Semicolon { place } => {
            format!("the `;` at place {place}, from 0, would end the tag; write %3B")
        }
        RuaFault::Outside { octet, place } => {
            let octet = octet_words(octet);
            format!("{octet} at place {place}, from 0, is outside 32 to 126")
        }
        RuaFault::Entry {
            number,
            entry,
            fault,
        } => entry_words(number, entry, fault),
    };
    format!("rua: {why}")
}
