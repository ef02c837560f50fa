//! What is shown of an input in a message, cut to a length that can be read.

/// The most characters of an input that are shown.
const MOST_SHOWN: usize = 80;

/// Octets in plain characters, cut if there are many.
pub fn brief(octets: &[u8]) -> String {
    let mut shown = String::new();
    for octet in octets {
        let next = octet.escape_ascii().to_string();
        if shown.len() + next.len() > MOST_SHOWN {
            return shown + "...";
        }
        shown.push_str(&next);
    }
    shown
}
