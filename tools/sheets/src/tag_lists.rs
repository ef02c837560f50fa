//! Policy texts of many tags.

/// The names a, b, ..., z, aa, ab, ..., by their number from 0.
fn numbered(number: usize) -> Vec<u8> {
    let (before, last) = (number / 26, b'a' + (number % 26) as u8);
    let mut name = match before {
        0 => Vec::new(),
        _ => numbered(before - 1),
    };
    name.push(last);
    name
}

/// A policy text of so many octets: distinct names other than `v` in their
/// order, and this end.
pub fn tag_list(end: &[u8], octets: usize) -> Vec<u8> {
    let room = octets.saturating_sub(end.len());
    let mut text = b"v=DMARC1".to_vec();
    for name in (0..).map(numbered).filter(|name| name != b"v") {
        if text.len() + name.len() + 3 > room {
            break;
        }
        text.push(b';');
        text.extend(name);
        text.extend(b"=1");
    }
    text.resize(room, b' ');
    text.extend(end);
    text
}
