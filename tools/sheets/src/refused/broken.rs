//! Why a sheet gets refusal 8 at a place.

use crate::domain_words;
use crate::shown::brief;
use evaluator::domain;
use evaluator::sheet::MOST_OCTETS;

pub fn words(octets: &[u8], place: usize) -> String {
    if octets.is_empty() {
        return "the sheet is empty".to_string();
    }
    if octets.len() > MOST_OCTETS && place == MOST_OCTETS {
        return "the sheet is over 65,536 octets".to_string();
    }
    let rest = octets.get(place..).unwrap_or_default();
    let [first, second, high, low, after @ ..] = rest else {
        let left = rest.len();
        return format!("{left} octets are left over, too few for a record");
    };
    let length = usize::from(u16::from_be_bytes([*high, *low]));
    match after.get(..length) {
        Some(body) => record_words([*first, *second], body, place),
        None => {
            let left = after.len();
            format!("a record says that it has {length} octets, and {left} are left")
        }
    }
}

/// Why a record is broken, or comes where it may not.
fn record_words(mark: [u8; 2], body: &[u8], place: usize) -> String {
    let shown = brief(&mark);
    match &mark {
        b"AU" | b"ID" | b"AN" if body.len() < 2 => {
            format!("a record {shown} has less than two octets")
        }
        b"AU" => "a second record AU".to_string(),
        _ if place == 0 => format!("the sheet begins with `{shown}`, and not with AU"),
        b"ID" => "a record ID comes after a record AN".to_string(),
        b"AN" => answer_words(body),
        _ => format!("`{shown}` is no mark of a record: these are AU, ID and AN"),
    }
}

fn answer_words(body: &[u8]) -> String {
    let [status, length, rest @ ..] = body else {
        return String::new();
    };
    let Some((name, bytes)) = rest.split_at_checked(usize::from(*length)) else {
        return "the name of an answer goes past the end of its record".to_string();
    };
    if *status > 2 {
        return format!("the status {status} is not listed: 0 records, 1 none, 2 error");
    }
    if domain::fault(name).is_some() {
        let why = domain_words::why(name);
        return format!("the name of an answer breaks the domain rule: {why}");
    }
    match *status != 0 && !bytes.is_empty() {
        true => "octets come after the name of an answer of none or error".to_string(),
        false => format!("the name {} is answered already", brief(name)),
    }
}
