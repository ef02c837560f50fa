//! A quoted text and its escapes, as zone files and dig have them.

const DIGITS: &str = "digits after a `\\` are three, from \\000 to \\255";

/// A quoted text after its opening quote, and what lies after its closing one.
pub fn quoted_text(text: &[u8]) -> Result<(Vec<u8>, &[u8]), String> {
    let mut out = Vec::new();
    let mut rest = text;
    loop {
        rest = match rest {
            [] => return Err("a quoted text is not closed".to_string()),
            [b'"', after @ ..] => return Ok((out, after)),
            [b'\\', after @ ..] => {
                let (octet, after) = escape(after)?;
                out.push(octet);
                after
            }
            [octet, after @ ..] => {
                out.push(*octet);
                after
            }
        };
    }
}

/// The octet that an escape stands for, and what lies after it: `\DDD`, `\xHH`,
/// or any other printing octet for itself.
fn escape(text: &[u8]) -> Result<(u8, &[u8]), String> {
    match text {
        [b'x', high, low, after @ ..] if high.is_ascii_hexdigit() && low.is_ascii_hexdigit() => {
            Ok((hex_octet(*high, *low)?, after))
        }
        [b'0'..=b'9', ..] => decimal(text),
        [octet @ 32..=126, after @ ..] => Ok((*octet, after)),
        _ => Err("a `\\` stands before no printing octet".to_string()),
    }
}

fn decimal(text: &[u8]) -> Result<(u8, &[u8]), String> {
    let digits = text.first_chunk::<3>().ok_or(DIGITS)?;
    let number = std::str::from_utf8(digits).ok();
    let number = number.filter(|word| word.bytes().all(|octet| octet.is_ascii_digit()));
    let octet = number.and_then(|word| word.parse().ok()).ok_or(DIGITS)?;
    Ok((octet, text.get(3..).unwrap_or_default()))
}

pub fn hex_octet(high: u8, low: u8) -> Result<u8, String> {
    let digit = |octet: u8| char::from(octet).to_digit(16);
    match (digit(high), digit(low)) {
        (Some(high), Some(low)) => Ok((high * 16 + low) as u8),
        _ => Err("not a hex digit".to_string()),
    }
}
