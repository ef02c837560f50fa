//! A sheet as its description.

use super::words::{word, EXISTENCES, KINDS, OUTCOMES, SUPPORTS};
use crate::written::{cut, hex};
use evaluator::sheet::{self, GivenAnswer, GivenIdentifier, GivenMessage};
use evaluator::txt::{self, Status};

/// Describes a sheet. What is no well-formed sheet is given as `sheet hex ...`.
pub fn describe(octets: &[u8]) -> String {
    let Ok(sheet) = sheet::read(octets) else {
        return format!("sheet hex {}\n", hex(octets));
    };
    let mut text = author_line(&sheet.message);
    for identifier in &sheet.message.identifiers {
        text.push_str(&identifier_line(identifier));
    }
    for answer in &sheet.answers {
        text.push_str(&answer_lines(answer));
    }
    text
}

fn author_line(given: &GivenMessage) -> String {
    let (existence, support) = (given.existence, given.support);
    let words = word(&EXISTENCES, existence).zip(word(&SUPPORTS, support));
    let said = match words {
        Some((existence, support)) => format!("{existence} {support}"),
        None => format!("existence={existence} support={support}"),
    };
    format!("author {} {said}\n", domain_word(given.author))
}

fn identifier_line(given: &GivenIdentifier) -> String {
    let (kind, outcome) = (given.kind, given.outcome);
    let said = match word(&KINDS, kind).zip(word(&OUTCOMES, outcome)) {
        Some((kind, outcome)) => format!("{kind} {outcome}"),
        None => format!("id kind={kind} outcome={outcome}"),
    };
    format!("{said} {}\n", domain_word(given.domain))
}

/// A line for each record, or one for an answer without any.
fn answer_lines(given: &GivenAnswer) -> String {
    let name = domain_word(given.name);
    let said = match given.answer.status {
        Status::None => vec!["none".to_string()],
        Status::Error => vec!["error".to_string()],
        Status::Records => records_words(given.answer.bytes),
    };
    let lines = said.iter().map(|said| format!("answer {name} {said}\n"));
    lines.collect()
}

/// An answer's records as quoted texts, or its bytes in hex if it has none.
fn records_words(bytes: &[u8]) -> Vec<String> {
    match txt::records(bytes) {
        Some(records) if !records.is_empty() => {
            let words = records.iter().map(|strings| record_words(strings));
            words.collect()
        }
        _ => vec![format!("hex {}", hex(bytes)).trim_end().to_string()],
    }
}

/// One quoted text if its cut gives these character-strings, else each of them.
fn record_words(strings: &[&[u8]]) -> String {
    let text = strings.concat();
    if cut(&text) == strings {
        return quoted(&text);
    }
    let words: Vec<String> = strings.iter().map(|string| quoted(string)).collect();
    words.join(" ")
}

/// A text between quotes, with escapes where they are needed.
pub fn quoted(text: &[u8]) -> String {
    let mut out = String::from("\"");
    for octet in text {
        match octet {
            b'"' => out.push_str("\\\""),
            b'\\' => out.push_str("\\\\"),
            32..=126 => out.push(char::from(*octet)),
            _ => out.push_str(&format!("\\x{octet:02x}")),
        }
    }
    out.push('"');
    out
}

/// A domain as a word, in hex where it has other octets than plain ones.
pub fn domain_word(domain: &[u8]) -> String {
    let plain = |octet: &u8| octet.is_ascii_alphanumeric() || b".-_".contains(octet);
    if domain.is_empty() || !domain.iter().all(plain) {
        return format!("hex:{}", hex(domain));
    }
    String::from_utf8_lossy(domain).into_owned()
}
