//! The domain rule, labels and where the last of them begin, walk targets and
//! asked names.

/// "domain: 253 octets"
pub const MOST_OCTETS: usize = 253;
/// "labels 1 to 63"
pub const MOST_LABEL_OCTETS: usize = 63;
/// "A target over 246 octets is not asked"
pub const MOST_TARGET_OCTETS: usize = 246;
/// "the whole asked name, `_dmarc.` included"
pub const PREFIX: &[u8] = b"_dmarc.";
/// "for every n a walk needs": 7 for its targets, 8 for the organizational
/// domain of a psd=y record at the last 7.
pub const MOST_LAST_LABELS: usize = 8;

/// A domain that keeps the rule, in lower case ("ASCII case never matters") and
/// without a final dot.
#[derive(Clone, Debug, PartialEq, Eq)]
pub struct Domain {
    octets: Vec<u8>,
}

/// Ask 5 of document 02: "Let every domain we take ... end in one dot, which is
/// dropped before anything else is judged."
pub fn without_dot(text: &[u8]) -> &[u8] {
    text.strip_suffix(b".").unwrap_or(text)
}

/// Where a text breaks the domain rule without its final dot, if it does: "where
/// the first bad label begins; 0 if empty; 253 if only the length is wrong".
pub fn fault(text: &[u8]) -> Option<usize> {
    let text = without_dot(text);
    let mut begin = 0;
    for label in text.split(|octet| *octet == b'.') {
        if !good_label(label) {
            return Some(begin);
        }
        begin += label.len() + 1;
    }
    (text.len() > MOST_OCTETS).then_some(MOST_OCTETS)
}

/// "letters, digits, `-` and `_`", 1 to 63 of them.
fn good_label(label: &[u8]) -> bool {
    let good = |octet: &u8| octet.is_ascii_alphanumeric() || *octet == b'-' || *octet == b'_';
    !label.is_empty() && label.len() <= MOST_LABEL_OCTETS && label.iter().all(good)
}

/// What one pass over a domain finds (Ask 3 of document 02).
#[derive(Clone, Copy, Debug, PartialEq, Eq)]
pub struct LabelPass {
    pub labels: usize,
    /// The rounds of the pass: one for each octet.
    pub rounds: usize,
    /// Where the last 1, 2, ... labels begin; 0 where there are no more labels.
    pub begins: [usize; MOST_LAST_LABELS],
}

/// Counts the labels of a domain that keeps the rule. Each dot begins a new
/// last label, and what were the last n labels are now the last n + 1.
pub fn label_pass(domain: &[u8]) -> LabelPass {
    let mut pass = LabelPass {
        labels: 1,
        rounds: 0,
        begins: [0; MOST_LAST_LABELS],
    };
    for octet in domain {
        pass.rounds += 1;
        if *octet == b'.' {
            pass.labels += 1;
            pass.begins.rotate_right(1);
            pass.begins[0] = pass.rounds;
        }
    }
    pass
}

impl Domain {
    /// Reads a domain, which may end in a dot, or says where it breaks the rule.
    pub fn read(text: &[u8]) -> Result<Domain, usize> {
        match fault(text) {
            Some(place) => Err(place),
            None => Ok(Domain {
                octets: without_dot(text).to_ascii_lowercase(),
            }),
        }
    }

    pub fn octets(&self) -> &[u8] {
        &self.octets
    }

    fn labels(&self) -> Vec<&[u8]> {
        self.octets.split(|octet| *octet == b'.').collect()
    }

    pub fn label_count(&self) -> usize {
        self.labels().len()
    }

    /// The domain's last labels, at least one and at most all.
    pub fn last_labels(&self, count: usize) -> Domain {
        let labels = self.labels();
        let dropped = labels.len().saturating_sub(count.max(1));
        let kept: Vec<&[u8]> = labels.into_iter().skip(dropped).collect();
        Domain {
            octets: kept.join(&b'.'),
        }
    }

    /// "looks at the domain, then its last x-1 labels, or its last 7 if x is
    /// over 8, then one label fewer each time down to one"
    pub fn walk_targets(&self) -> Vec<Domain> {
        let x = self.label_count();
        let second = if x > 8 { 7 } else { x - 1 };
        let mut targets = vec![self.clone()];
        for count in (1..=second).rev() {
            targets.push(self.last_labels(count));
        }
        targets
    }

    /// The name that is asked for this target; "a target over 246 octets is
    /// not asked".
    pub fn asked_name(&self) -> Option<Vec<u8>> {
        (self.octets.len() <= MOST_TARGET_OCTETS).then(|| [PREFIX, &self.octets].concat())
    }

    /// The octet place at which a target begins in this domain.
    pub fn place_of(&self, target: &Domain) -> usize {
        self.octets.len().saturating_sub(target.octets.len())
    }
}
