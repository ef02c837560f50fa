//! One call made twice, which must come to the same: by the code and by the book,
//! or in C and in Rust.

use std::fmt::Display;

use sheets::programs::lent::FILL;
use sheets::written::hex;

/// Octets behind the lent memory, which nobody may write.
pub const BEHIND: usize = 16;
/// As many octets of lent memory are shown.
const SHOWN: usize = 40;

/// What the code and the book give with so much lent memory, and that memory as both
/// leave it.
pub fn alike<T: PartialEq + Display>(
    size: usize,
    code: impl FnOnce(&mut [u8]) -> Result<T, String>,
    book: impl FnOnce(&mut [u8]) -> T,
) -> Result<(T, Vec<u8>), String> {
    let mut lent = vec![FILL; size + BEHIND];
    let mut expected_lent = lent.clone();
    let told = code(lent.get_mut(..size).unwrap_or_default())?;
    let expected = book(expected_lent.get_mut(..size).unwrap_or_default());
    if told != expected {
        let (told, expected) = (told.to_string(), expected.to_string());
        return Err(two("the answers differ", &told, &expected));
    }
    match lent == expected_lent {
        true => Ok((told, lent)),
        false => Err(memory(&lent, &expected_lent)),
    }
}

/// What a call gives by the C interface, where the safe one gives and leaves the
/// same.
pub fn in_both<T: PartialEq + Display>(in_c: T, safe: T, leaves: bool) -> Result<T, String> {
    if safe != in_c {
        return Err(format!("{in_c} in C is {safe} in Rust"));
    }
    match leaves {
        true => Ok(in_c),
        false => Err(format!("{in_c} leaves something else in C than in Rust")),
    }
}

/// Lent memory from the first octet on in which it differs.
fn memory(lent: &[u8], expected: &[u8]) -> String {
    let mut pairs = lent.iter().zip(expected);
    let at = pairs.position(|(own, other)| own != other).unwrap_or(0);
    let shown = |octets: &[u8]| {
        let shown = octets.get(at..).unwrap_or_default();
        hex(shown.get(..SHOWN).unwrap_or(shown))
    };
    let what = format!("the lent memory differs at octet {at}");
    two(&what, &shown(lent), &shown(expected))
}

fn two(what: &str, given: &str, expected: &str) -> String {
    format!("{what}\n-- the proved code\n{given}\n-- the reference\n{expected}")
}

#[cfg(test)]
mod tests {
    use super::in_both;

    #[test]
    fn in_c_and_in_rust() {
        assert_eq!(in_both(1, 1, true), Ok(1));
        let other = in_both(1, 2, true);
        assert_eq!(other, Err("1 in C is 2 in Rust".to_string()));
        let left = in_both(1, 1, false);
        let said = "1 leaves something else in C than in Rust".to_string();
        assert_eq!(left, Err(said));
    }
}
