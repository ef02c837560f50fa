//! Policy texts in words: why a text is no policy record, what a record sets,
//! what of it is ignored and why, and what makes it not usable.

use crate::description::quoted;
use evaluator::policy::entries::{check_entry, entries, EntryFault};
use evaluator::policy::parts::{parts, Part, PartFault, Tag, VersionFault};
use evaluator::policy::{self, listed, repeated_name, word};
use evaluator::policy::{Request, Settings, Words, MODES, POLICIES, PSDS, TESTING};

const KNOWN: [&str; 9] = ["v", "p", "sp", "np", "adkim", "aspf", "psd", "t", "rua"];

/// An octet in words.
pub fn octet_words(octet: u8) -> String {
    match octet {
        b' ' => "a blank".to_string(),
        b'\t' => "a tab".to_string(),
        33..=126 => format!("`{}`", char::from(octet)),
        _ => format!("octet {octet}"),
    }
}

/// The words that a tag lists.
pub fn list<T>(words: &Words<T>) -> String {
    let words: Vec<&str> = words.iter().map(|(word, _)| *word).collect();
    words.join(", ")
}

/// That a value is not listed.
pub fn not_listed<T>(words: &Words<T>, value: &[u8]) -> String {
    format!("{} is not one of {}", quoted(value), list(words))
}

/// That an entry of a rua text, by its number, is not valid.
pub fn entry_words(number: usize, entry: &[u8], fault: EntryFault) -> String {
    let (entry, why) = (quoted(entry), fault_words(fault));
    format!("entry {number}, {entry}, is not valid: {why}")
}

/// What is wrong with an entry that is not valid.
pub fn fault_words(fault: EntryFault) -> String {
    match fault {
        EntryFault::Empty => "it is empty".to_string(),
        EntryFault::NoColon => "it has no `:`, as in mailto:a@example.com".to_string(),
        EntryFault::NoScheme => "what stands before its `:` is no scheme, as mailto is".to_string(),
        EntryFault::NothingAfterColon => "nothing comes after its `:`".to_string(),
        EntryFault::Percent => "a `%` in it is not followed by two hex digits".to_string(),
        EntryFault::Octet(octet) => format!("{} may not stand in it", octet_words(octet)),
    }
}

/// Why a text is no policy record for its first part.
fn version_words(text: &[u8], fault: VersionFault) -> String {
    let first = text.split(|octet| *octet == b';').next();
    let first = quoted(first.unwrap_or_default());
    let why = match fault {
        VersionFault::BlankBefore => "no blank may stand before v",
        VersionFault::NoV => "it does not begin with v",
        VersionFault::NoEquals => "no `=` comes after v",
        VersionFault::OtherValue => "its value is DMARC1 in capitals, and nothing else",
    };
    format!("its first part is {first}, and not v=DMARC1: {why}")
}

fn repeated_words(text: &[u8]) -> String {
    let name = repeated_name(text).unwrap_or_default().to_ascii_lowercase();
    format!("tag {} is written twice", String::from_utf8_lossy(&name))
}

/// A policy record as it was read.
pub struct PolicyRecord<'a> {
    parts: Vec<Part<'a>>,
    pub settings: Settings,
    rua: &'a [u8],
}

impl<'a> PolicyRecord<'a> {
    /// Reads a text; the error says why it is no policy record.
    pub fn read(text: &'a [u8]) -> Result<PolicyRecord<'a>, String> {
        let parts = parts(text).map_err(|fault| version_words(text, fault))?;
        let settings = policy::read(text).ok_or_else(|| repeated_words(text))?;
        let rua = policy::rua_text(text);
        Ok(PolicyRecord {
            parts,
            settings,
            rua,
        })
    }

    /// What it sets, tag by tag, whether it is usable, and what is ignored.
    pub fn lines(&self) -> Vec<String> {
        let mut lines = self.tag_lines();
        lines.extend(self.rua_lines());
        lines.push(match self.not_usable() {
            None => "usable: yes".to_string(),
            Some(why) => format!("usable: no, since {why}"),
        });
        lines.extend(self.parts.iter().filter_map(ignored_line));
        lines
    }

    /// What of it has not the meaning it was meant to have, and why.
    pub fn faults(&self) -> Vec<String> {
        let mut lines = self.tag_lines();
        lines.retain(|line| line.contains(", since "));
        lines.extend(self.entry_faults().map(|fault| format!("rua: {fault}")));
        lines.extend(self.parts.iter().filter_map(ignored_line));
        lines
    }

    fn tag_lines(&self) -> Vec<String> {
        let settings = &self.settings;
        vec![
            self.request_line("p", settings.p),
            self.request_line("sp", settings.sp),
            self.request_line("np", settings.np),
            self.line("adkim", MODES, settings.adkim),
            self.line("aspf", MODES, settings.aspf),
            self.line("psd", PSDS, settings.psd),
            self.line("t", TESTING, settings.testing),
        ]
    }

    /// The value of a tag, if the record has it.
    fn value(&self, name: &str) -> Option<&[u8]> {
        let mut tags = self.parts.iter().filter_map(|part| part.tag.ok());
        tags.find(|tag| is_named(tag, name)).map(|tag| tag.value)
    }

    fn request_line(&self, name: &str, request: Request) -> String {
        let said = match request {
            Request::Absent => "absent".to_string(),
            Request::Valid(policy) => policy.word().to_string(),
            Request::Invalid => {
                let value = self.value(name).unwrap_or_default();
                format!("invalid, since {}", not_listed(POLICIES, value))
            }
        };
        format!("{name}: {said}")
    }

    /// The line of a tag that has a default.
    fn line<T>(&self, name: &str, words: &Words<T>, meant: T) -> String
    where
        T: Copy + Default + PartialEq,
    {
        let unlisted = self
            .value(name)
            .filter(|value| listed(words, value).is_none());
        let since = unlisted.map(|value| format!(", since {}", not_listed(words, value)));
        let default = match meant == T::default() {
            true => format!(", the default{}", since.unwrap_or_default()),
            false => String::new(),
        };
        format!("{name}: {}{default}", word(words, meant))
    }

    /// The rua text, whether it has a valid entry, and the entries that are not
    /// valid.
    fn rua_lines(&self) -> Vec<String> {
        if self.rua.is_empty() {
            return vec!["rua: absent".to_string()];
        }
        let valid = match self.settings.rua_valid {
            true => "with a valid entry",
            false => "without a valid entry",
        };
        let mut lines = vec![format!("rua: {}, {valid}", quoted(self.rua))];
        lines.extend(self.entry_faults().map(|fault| format!("  {fault}")));
        lines
    }

    /// The entries of rua that are not valid.
    fn entry_faults(&self) -> impl Iterator<Item = String> + '_ {
        let given = Some(self.rua).filter(|rua| !rua.is_empty());
        let numbered = (1..).zip(given.into_iter().flat_map(entries));
        numbered.filter_map(|(number, entry)| {
            let fault = check_entry(entry).err()?;
            Some(entry_words(number, entry, fault))
        })
    }

    /// Why the record is not usable and what that comes to, if it is not.
    pub fn not_usable(&self) -> Option<String> {
        let settings = &self.settings;
        if settings.usable().is_some() {
            return None;
        }
        let mut faults = Vec::new();
        if settings.p == Request::Absent {
            faults.push("p is absent".to_string());
        }
        let requests = [("p", settings.p), ("sp", settings.sp), ("np", settings.np)];
        for (name, request) in requests {
            if request == Request::Invalid {
                faults.push(format!("{name} is invalid"));
            }
        }
        let then = match settings.rua_valid {
            true => "rua has a valid entry, so all three policies read as none",
            false => "rua has no valid entry, so the result is permerror",
        };
        Some(format!("{}; {then}", faults.join(" and ")))
    }
}

fn is_named(tag: &Tag, name: &str) -> bool {
    tag.name.eq_ignore_ascii_case(name.as_bytes())
}

/// That a part sets nothing, and why. Of empty parts nothing is said.
fn ignored_line(part: &Part) -> Option<String> {
    let why = match part.tag {
        Ok(tag) if KNOWN.iter().any(|name| is_named(&tag, name)) => return None,
        Ok(_) => "the tag is unknown".to_string(),
        Err(PartFault::Empty) => return None,
        Err(PartFault::NoEquals) => "it has no `=`".to_string(),
        Err(PartFault::NoName) => "it has no name".to_string(),
        Err(PartFault::NoLetter(octet)) => {
            format!("its name has {}, which is no letter", octet_words(octet))
        }
        Err(PartFault::NoValue) => "it has no value".to_string(),
        Err(PartFault::Outside(octet)) => {
            let octet = octet_words(octet);
            format!("its value has {octet}, which is outside 32 to 126")
        }
    };
    Some(format!("ignored: {}, since {why}", quoted(part.text)))
}
