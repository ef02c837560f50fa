//! The lines of a description.

use super::described::Mistake;
use super::tokens::{tokens, Token};

/// The mark that some editors write before a text in UTF-8.
const BYTE_ORDER_MARK: &[u8] = b"\xef\xbb\xbf";

/// Hands over the words of each line, with its number from 1, up to a mistake. Of a
/// line that begins with a quoted text it is said what to put before that.
pub fn each_line(
    text: &[u8],
    before: &str,
    mut take: impl FnMut(&[Token], usize) -> Result<(), String>,
) -> Result<(), Mistake> {
    let text = text.strip_prefix(BYTE_ORDER_MARK).unwrap_or(text);
    for (line, text) in (1..).zip(text.split(|octet| *octet == b'\n')) {
        let taken = words(text, before).and_then(|tokens| take(&tokens, line));
        taken.map_err(|reason| Mistake { line, reason })?;
    }
    Ok(())
}

/// The words of a line, the first of which is not quoted.
fn words(text: &[u8], before: &str) -> Result<Vec<Token>, String> {
    let tokens = tokens(text)?;
    match tokens.first() {
        Some(Token::Quoted(_)) => Err(format!(
            "a line does not begin with a quoted text; put {before} before it"
        )),
        _ => Ok(tokens),
    }
}
