//! The answers of a description: a name and what was answered, on lines of its
//! own or as dig prints them.

use super::tokens::{domain_octets, hex_words, Token};
use crate::written::{answer_bytes, cut, status_number, Record};
use evaluator::txt::Status;

/// What stands before the texts of an answer.
pub const BEFORE_TEXTS: &str = "`answer` and the asked name";

const ANSWER_FORMS: &str = "an answer is none, error, quoted texts, or hex and its digits";

/// What one line answers to a name.
#[derive(Debug, PartialEq, Eq)]
pub struct AnswerLine {
    pub name: Vec<u8>,
    pub status: Status,
    pub bytes: Vec<u8>,
    /// Whether it is one record, to which other lines may add others.
    pub adds: bool,
}

impl AnswerLine {
    /// Its record on a sheet.
    pub fn record(&self) -> Record {
        Record::answer(status_number(self.status), &self.name, &self.bytes)
    }

    /// How many octets the body of that record has.
    pub fn octets(&self) -> usize {
        2 + self.name.len() + self.bytes.len()
    }
}

/// The words after `answer`.
pub fn answer(tokens: &[Token]) -> Result<AnswerLine, String> {
    let Some((name, said)) = tokens.split_first() else {
        return Err("answer takes a name and what was answered".to_string());
    };
    let name = name_octets(name)?;
    let whole = |status, bytes| AnswerLine {
        name: name.clone(),
        status,
        bytes,
        adds: false,
    };
    match said {
        [word] if word.is("none") => Ok(whole(Status::None, Vec::new())),
        [word] if word.is("error") => Ok(whole(Status::Error, Vec::new())),
        [word, ..] if word.is("hex") => Ok(whole(Status::Records, hex_words(said)?)),
        _ => record_line(name, said),
    }
}

fn name_octets(token: &Token) -> Result<Vec<u8>, String> {
    let name = domain_octets(token)?;
    match name.len() > usize::from(u8::MAX) {
        true => Err("the name is over 255 octets".to_string()),
        false => Ok(name),
    }
}

/// A line of one record with these strings.
fn record_line(name: Vec<u8>, strings: &[Token]) -> Result<AnswerLine, String> {
    Ok(AnswerLine {
        name,
        status: Status::Records,
        bytes: quoted_record(strings)?,
        adds: true,
    })
}

/// Quoted texts, which are the strings of one record; a plus sign may stand
/// between two of them.
fn quoted_record(tokens: &[Token]) -> Result<Vec<u8>, String> {
    let mut strings = Vec::new();
    let mut joined = false;
    for token in tokens {
        match token {
            Token::Quoted(text) => strings.extend(cut(text)),
            Token::Word(word) if word == b"+" && !joined && !strings.is_empty() => {}
            Token::Word(_) => return Err(ANSWER_FORMS.to_string()),
        }
        joined = matches!(token, Token::Word(_));
    }
    if joined || strings.is_empty() {
        return Err(ANSWER_FORMS.to_string());
    }
    answer_bytes(&[strings]).ok_or_else(|| "a record is over 65535 octets".to_string())
}

/// A line of dig's answer section: name, time to live, class, type and strings.
/// Nothing if it has not that form.
pub fn pasted(tokens: &[Token]) -> Option<Result<AnswerLine, String>> {
    let (name, rest) = tokens.split_first()?;
    let rest = after_first(rest, is_ttl);
    let rest = after_first(rest, |word| word.is("IN"));
    let (kind, strings) = rest.split_first()?;
    if kind.is("CNAME") {
        let form = "give the asked name itself with the strings it led to: answer NAME \"...\"";
        return Some(Err(format!(
            "of dig's lines only those of TXT are read; {form}"
        )));
    }
    let read = || record_line(name_octets(name)?, strings);
    kind.is("TXT").then(read)
}

/// The tokens without the first one, if it is such a one.
fn after_first(tokens: &[Token], such: impl Fn(&Token) -> bool) -> &[Token] {
    match tokens.split_first() {
        Some((first, rest)) if such(first) => rest,
        _ => tokens,
    }
}

/// A number of seconds, or one with units as `1h30m`.
fn is_ttl(token: &Token) -> bool {
    let Token::Word(word) = token else {
        return false;
    };
    let of_ttl = |octet: &u8| octet.is_ascii_digit() || b"smhdwSMHDW".contains(octet);
    word.first().is_some_and(u8::is_ascii_digit) && word.iter().all(of_ttl)
}
