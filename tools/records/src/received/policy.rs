//! The policy domain of a report, from the octets that the reader took: it hands out
//! rows alone.

/// What stands before it, and nowhere else in a report.
const BEFORE: &[u8] = b"<policy_published><domain>";

/// What was found of it so far.
#[derive(Default)]
pub struct PolicyDomain {
    /// Octets of what stands before it.
    matched: usize,
    domain: Vec<u8>,
    is_whole: bool,
}

impl PolicyDomain {
    /// Goes on with octets that were not refused.
    pub fn take(&mut self, octets: &[u8]) {
        for octet in octets {
            if self.is_whole {
                return;
            }
            self.step(*octet);
        }
    }

    fn step(&mut self, octet: u8) {
        match BEFORE.get(self.matched) {
            None if octet == b'<' => self.is_whole = true,
            None => self.domain.push(octet),
            Some(next) if *next == octet => self.matched += 1,
            Some(_) => self.matched = usize::from(octet == b'<'),
        }
    }

    /// The domain; none where the report has not come so far.
    pub fn whole(self) -> Vec<u8> {
        match self.is_whole {
            true => self.domain,
            false => Vec::new(),
        }
    }
}

#[cfg(test)]
mod tests {
    use super::*;

    fn of(text: &str, cut: usize) -> Vec<u8> {
        let mut policy = PolicyDomain::default();
        for part in text.as_bytes().chunks(cut) {
            policy.take(part);
        }
        policy.whole()
    }

    #[test]
    fn cut_anywhere() {
        let text = "<a><policy_pub><policy_published><domain>a.b</domain><domain>c</domain>";
        for cut in 1..=text.len() {
            assert_eq!(of(text, cut), b"a.b");
        }
    }

    #[test]
    fn not_yet_whole() {
        for text in ["", "<policy_published>", "<policy_published><domain>a.b"] {
            assert_eq!(of(text, 3), b"");
        }
    }
}
