//! What the lines of a day's domains, texts and record give.

use crate::description::{domain_octets, Token};

/// One domain.
pub fn domain(tokens: &[Token], item: &str) -> Result<Vec<u8>, String> {
    match tokens {
        [domain] => domain_octets(domain),
        _ => Err(format!(
            "{item} takes one domain, as in: {item} example.com"
        )),
    }
}

/// One text, in quotes or a word.
pub fn text(tokens: &[Token], item: &str) -> Result<Vec<u8>, String> {
    match tokens {
        [text] => Ok(text.octets().to_vec()),
        _ => Err(format!(
            "{item} takes one text; put it in quotes if it has blanks"
        )),
    }
}

/// The strings of a policy record, joined.
pub fn record(tokens: &[Token]) -> Result<Vec<u8>, String> {
    let mut record = Vec::new();
    for token in tokens {
        match token {
            Token::Quoted(text) => record.extend(text),
            Token::Word(_) => return Err(RECORD_FORM.to_string()),
        }
    }
    match tokens.is_empty() {
        true => Err(RECORD_FORM.to_string()),
        false => Ok(record),
    }
}

const RECORD_FORM: &str =
    "record takes the text of a policy record in quotes, as in: record \"v=DMARC1; p=reject\"";
