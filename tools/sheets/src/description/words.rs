//! The words of the numbers that document 01 lists, each at its number.

use super::tokens::Token;

pub const EXISTENCES: [&str; 3] = ["missing", "exists", "unknown"];
pub const SUPPORTS: [&str; 2] = ["unsupported", "supported"];
pub const KINDS: [&str; 2] = ["spf", "dkim"];
pub const OUTCOMES: [&str; 3] = ["fail", "pass", "temperror"];

const OTHER_OUTCOMES: &str = "softfail, neutral, none and permerror are fail";

/// The word of a number, if it is listed.
pub fn word<'a>(words: &[&'a str], number: u8) -> Option<&'a str> {
    words.get(usize::from(number)).copied()
}

/// The number of a word in either case, if it is one of these.
fn number(words: &[&str], word: &[u8]) -> Option<u8> {
    let own = |known: &&str| word.eq_ignore_ascii_case(known.as_bytes());
    let at = words.iter().position(own)?;
    u8::try_from(at).ok()
}

/// The number of one of these words, which stand for what is named.
pub fn number_of(words: &[&str], token: &Token, what: &str) -> Result<u8, String> {
    let found = match token {
        Token::Word(word) => number(words, word),
        Token::Quoted(_) => None,
    };
    found.ok_or_else(|| format!("the {what} is one of {}", words.join(", ")))
}

/// The number of an identifier's outcome.
pub fn outcome_of(token: &Token) -> Result<u8, String> {
    let outcome = number_of(&OUTCOMES, token, "outcome");
    outcome.map_err(|reason| format!("{reason}; {OTHER_OUTCOMES}"))
}
