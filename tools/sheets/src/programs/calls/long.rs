//! Long domains.

/// A domain of so many octets that ends in this one, of labels as long as can
/// be.
pub fn longer(domain: &str, octets: usize) -> String {
    let mut left = octets.saturating_sub(domain.len());
    let mut front = String::new();
    while left > 1 {
        // A label needs one octet beside its dot.
        let piece = match left {
            65 => 63,
            _ => left.min(64),
        };
        front.push_str(&"x".repeat(piece - 1));
        front.push('.');
        left -= piece;
    }
    front + domain
}
