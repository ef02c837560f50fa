//! A message as it was handed over: a sheet, or a description that makes one,
//! under a name.

use crate::description::{self, Described};
use evaluator::sheet;

/// What stands for a file's name where standard input is read.
pub const STANDARD_INPUT: &str = "standard input";
/// The longest description that is read.
pub const MOST_DESCRIPTION_OCTETS: usize = 1 << 20;

/// How a message is written.
#[derive(Clone, Copy, Debug, PartialEq, Eq)]
pub enum Form {
    Sheet,
    Description,
}

impl Form {
    /// The form of a word.
    pub fn read(word: &str) -> Option<Form> {
        match word {
            "sheet" => Some(Form::Sheet),
            "description" => Some(Form::Description),
            _ => None,
        }
    }

    /// The most octets that are read: one more than there may be settles that
    /// there are too many.
    pub fn most_octets(self) -> u64 {
        let most = match self {
            Form::Sheet => sheet::MOST_OCTETS,
            Form::Description => MOST_DESCRIPTION_OCTETS,
        };
        most as u64 + 1
    }
}

#[derive(Clone, Debug, PartialEq, Eq)]
pub struct Handed {
    /// The name of its file.
    pub name: String,
    /// Without lines where it is a sheet.
    described: Described,
}

impl Handed {
    /// Reads a message; the error has the file's name, and the line of a mistake.
    pub fn read(form: Form, name: &str, octets: &[u8]) -> Result<Handed, String> {
        match form {
            Form::Sheet => Ok(Handed::sheet_of(name, octets)),
            Form::Description => {
                let named = |reason: String| in_file(name, &reason);
                let described = read_description(octets).map_err(named)?;
                let name = name.to_string();
                Ok(Handed { name, described })
            }
        }
    }

    /// A message that is a sheet.
    pub fn sheet_of(name: &str, octets: &[u8]) -> Handed {
        Handed {
            name: name.to_string(),
            described: Described {
                sheet: octets.to_vec(),
                lines: Vec::new(),
            },
        }
    }

    pub fn sheet(&self) -> &[u8] {
        &self.described.sheet
    }

    /// The line of the record at a place of the sheet, if it has lines.
    pub fn line(&self, place: usize) -> Option<usize> {
        self.described.line(place)
    }

    /// Where the record at a place of the sheet stands in what was handed over.
    pub fn place_words(&self, place: usize) -> String {
        match self.line(place) {
            Some(line) => format!("line {line}"),
            None => format!("octet {place}"),
        }
    }
}

/// Each line of a reason with the file's name before it.
pub fn in_file(name: &str, reason: &str) -> String {
    let lines: Vec<String> = reason.lines().map(|l| format!("{name}: {l}")).collect();
    lines.join("\n")
}

fn read_description(octets: &[u8]) -> Result<Described, String> {
    if octets.is_empty() {
        let such = "a description has a line such as: author example.com exists supported";
        return Err(format!("it is empty; {such}"));
    }
    check_text(octets, "message")?;
    description::read(octets).map_err(|mistake| match is_binary(octets) {
        true => format!("{mistake}\nread as a description; if it is a sheet, say --sheet"),
        false => mistake.to_string(),
    })
}

/// That octets are no longer than a message or a check needs, and not in UTF-16.
pub fn check_text(octets: &[u8], of: &str) -> Result<(), String> {
    if octets.len() > MOST_DESCRIPTION_OCTETS {
        return Err(format!("it is over 1,048,576 octets, which no {of} needs"));
    }
    check_encoding(octets)
}

/// That octets are not in UTF-16.
pub fn check_encoding(octets: &[u8]) -> Result<(), String> {
    match octets.starts_with(b"\xff\xfe") || octets.starts_with(b"\xfe\xff") {
        true => Err("it is written in UTF-16; save it as UTF-8 or ASCII".to_string()),
        false => Ok(()),
    }
}

/// Whether octets have one that no text has.
fn is_binary(octets: &[u8]) -> bool {
    let binary = |octet: &u8| octet.is_ascii_control() && !octet.is_ascii_whitespace();
    octets.iter().any(binary)
}
