//! A text on one line with a mark below one of its octets.

/// The most columns that are shown before the mark, and after it.
const BEFORE: usize = 60;
const AFTER: usize = 30;
const CUT: &str = "...";

/// An octet in plain characters.
fn shown_octet(octet: u8) -> String {
    match octet {
        b'\r' => "\\r".to_string(),
        b'\n' => "\\n".to_string(),
        b'\t' => "\\t".to_string(),
        b'\\' => "\\\\".to_string(),
        32..=126 => char::from(octet).to_string(),
        _ => format!("\\x{octet:02X}"),
    }
}

/// Octets in plain characters.
pub fn shown(octets: &[u8]) -> String {
    octets.iter().copied().map(shown_octet).collect()
}

/// The line, cut on either side where it is long, and the mark below the octet at
/// a place, or just past the end.
pub fn marked(text: &[u8], place: usize) -> [String; 2] {
    let (before, after) = text.split_at(place.min(text.len()));
    let before = last_columns(before);
    let mark = " ".repeat(before.len()) + "^";
    [before + &first_columns(after), mark]
}

fn last_columns(octets: &[u8]) -> String {
    let mut columns = 0;
    let kept = octets.iter().rev().take_while(|octet| {
        columns += shown_octet(**octet).len();
        columns <= BEFORE
    });
    let cut = octets.len() - kept.count();
    let dots = if cut == 0 { "" } else { CUT };
    dots.to_string() + &shown(octets.get(cut..).unwrap_or_default())
}

fn first_columns(octets: &[u8]) -> String {
    let mut columns = 0;
    let kept = octets.iter().take_while(|octet| {
        columns += shown_octet(**octet).len();
        columns <= AFTER
    });
    let end = kept.count();
    let dots = if end == octets.len() { "" } else { CUT };
    shown(octets.get(..end).unwrap_or_default()) + dots
}
