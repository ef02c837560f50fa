//! Why a domain breaks the domain rule, and what to give in its place.

use crate::policy_words::octet_words;
use crate::shown::brief;
use evaluator::domain::{self, without_dot, MOST_LABEL_OCTETS, MOST_OCTETS};

/// What is wrong first with a domain that breaks the rule.
pub fn why(text: &[u8]) -> String {
    let domain = without_dot(text);
    let shown = brief(domain);
    if domain.is_empty() {
        return "it is empty".to_string();
    }
    if let Some(host) = address_host(domain) {
        let host = brief(host);
        return format!("`{shown}` is an address; give its domain alone: {host}");
    }
    if !domain.is_ascii() {
        let form = "give the name in its A-label form, as xn--...";
        return format!("`{shown}` has octets outside ASCII; {form}");
    }
    let bad_label = domain::fault(text).and_then(|place| label_words(domain, place));
    let length = domain.len();
    bad_label.unwrap_or_else(|| format!("it has {length} octets, and {MOST_OCTETS} at the most"))
}

/// What stands after the last `@` of an address, if that is a domain.
fn address_host(text: &[u8]) -> Option<&[u8]> {
    let at = text.iter().rposition(|octet| *octet == b'@')?;
    let host = text.get(at + 1..).unwrap_or_default();
    domain::fault(host).is_none().then_some(host)
}

/// What is wrong with the label that begins at a place, if one does and anything
/// is.
fn label_words(domain: &[u8], place: usize) -> Option<String> {
    let (before, rest) = domain.split_at_checked(place)?;
    if before.last().is_some_and(|octet| *octet != b'.') {
        return None;
    }
    let label = rest.split(|octet| *octet == b'.').next();
    let label = label.unwrap_or_default();
    let good = |octet: &&u8| octet.is_ascii_alphanumeric() || b"-_".contains(octet);
    match label.iter().find(|octet| !good(octet)) {
        Some(octet) => {
            let (octet, shown) = (octet_words(*octet), brief(domain));
            let rule = "a domain has letters, digits, `-` and `_`, labels parted by single dots";
            Some(format!("{octet} may not stand in `{shown}`; {rule}"))
        }
        None if label.is_empty() => Some(format!("`{}` has a dot too many", brief(domain))),
        None if label.len() > MOST_LABEL_OCTETS => {
            let (shown, length) = (brief(label), label.len());
            let most = MOST_LABEL_OCTETS;
            Some(format!(
                "its label `{shown}` has {length} octets, and {most} at the most"
            ))
        }
        None => None,
    }
}
