//! The words of a description line, and the octets they stand for.

use super::escapes::{hex_octet, quoted_text};

/// A word of a description line.
#[derive(Debug, PartialEq, Eq)]
pub enum Token {
    Word(Vec<u8>),
    Quoted(Vec<u8>),
}

impl Token {
    /// Whether it is this word in either case, without quotes.
    pub fn is(&self, word: &str) -> bool {
        matches!(self, Token::Word(own) if own.eq_ignore_ascii_case(word.as_bytes()))
    }

    /// What stands in it, without quotes.
    pub fn octets(&self) -> &[u8] {
        match self {
            Token::Word(own) | Token::Quoted(own) => own,
        }
    }
}

/// Parts a line into words and quoted texts, up to its comment.
pub fn tokens(line: &[u8]) -> Result<Vec<Token>, String> {
    let mut tokens = Vec::new();
    let mut rest = line.trim_ascii_start();
    let mut after_blank = true;
    while let Some((first, after)) = rest.split_first() {
        if *first == b'#' && after_blank {
            break;
        }
        let left = if *first == b'"' {
            let (text, left) = quoted_text(after)?;
            tokens.push(Token::Quoted(text));
            left
        } else {
            let ends = |octet: &u8| octet.is_ascii_whitespace() || *octet == b'"';
            let length = rest.iter().position(ends).unwrap_or(rest.len());
            let (word, left) = rest.split_at(length);
            tokens.push(Token::Word(word.to_vec()));
            left
        };
        rest = left.trim_ascii_start();
        after_blank = rest.len() < left.len();
    }
    Ok(tokens)
}

fn hex_text(text: &[u8]) -> Result<Vec<u8>, String> {
    let octets = text.chunks(2).map(|pair| match pair {
        [high, low] => hex_octet(*high, *low),
        _ => Err("an odd number of hex digits".to_string()),
    });
    octets.collect()
}

/// `hex`, then hex digits in any number of words.
pub fn hex_words(tokens: &[Token]) -> Result<Vec<u8>, String> {
    let head_and_rest = tokens.split_first().filter(|(head, _)| head.is("hex"));
    let (_, rest) = head_and_rest.ok_or("`hex` expected")?;
    let mut digits = Vec::new();
    for token in rest {
        match token {
            Token::Word(word) => digits.extend(word),
            Token::Quoted(_) => return Err("a quoted text after `hex`".to_string()),
        }
    }
    hex_text(&digits)
}

/// What comes after the front of a word, which may be in either case.
pub fn after_front<'a>(word: &'a [u8], front: &str) -> Option<&'a [u8]> {
    let (own, rest) = word.split_at_checked(front.len())?;
    own.eq_ignore_ascii_case(front.as_bytes()).then_some(rest)
}

/// A domain or name: plain, or in hex after `hex:`.
pub fn domain_octets(token: &Token) -> Result<Vec<u8>, String> {
    match token {
        Token::Quoted(_) => Err("a domain is not quoted".to_string()),
        Token::Word(word) => match after_front(word, "hex:") {
            Some(digits) => hex_text(digits),
            None => Ok(word.clone()),
        },
    }
}
