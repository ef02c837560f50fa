//! Tags written twice in a policy text, or nearly so.

use std::collections::HashSet;

use super::domains::recased;
use crate::random::Random;
use crate::tag_lists::tag_list;

const VALUES: &[&str] = &["none", "reject", "s", "y", "n", "mailto:r@example.com", "1"];
/// Ends of a long list of names: the first of them, a later one or `v` again, a
/// new one, and the first in a part that is ill-formed.
const LIST_ENDS: &[&[u8]] = &[b";a=1", b";F=1", b";v=1", b";zzz=1", b";a=", b";a=\x80"];

/// Of parts whose names are alike, the first alone.
pub fn distinct(parts: &mut Vec<String>) {
    let mut seen = HashSet::from(["v".to_string()]);
    parts.retain(|part| {
        let (name, _) = part.split_once('=').unwrap_or((part, ""));
        seen.insert(name.trim().to_ascii_lowercase())
    });
}

/// Puts in a part again, or the version, mostly so that its name is there twice.
pub fn again(random: &mut Random, parts: &mut Vec<String>) {
    if random.percent(20) {
        let name = random.pick(&["fo", "pct", "x", "note"]);
        insert(random, parts, format!("{name}=1"));
        return insert_again(random, parts, name, "1");
    }
    let at = random.below(parts.len() + 1);
    let part = parts.get(at).map_or("v=DMARC1", String::as_str);
    let (name, value) = part.split_once('=').unwrap_or((part, "none"));
    let (name, value) = (name.trim().to_string(), value.to_string());
    insert_again(random, parts, &name, &value);
}

/// The name again: as it is, in another case, with blanks; or with a letter more,
/// or in a part that is ill-formed.
fn insert_again(random: &mut Random, parts: &mut Vec<String>, name: &str, value: &str) {
    let value = match random.percent(50) {
        true => value,
        false => random.pick(VALUES),
    };
    let other = recased(random, name.as_bytes().to_vec(), 100);
    let other = String::from_utf8_lossy(&other).into_owned();
    let part = match random.below(14) {
        0..=5 => format!("{name}={value}"),
        6 | 7 => format!("{other}={value}"),
        8 | 9 => format!("\t{other} = {value} "),
        10 => format!("{name}x={value}"),
        11 => format!("{name}="),
        12 => format!("{name}={value}\u{80}"),
        _ => name.to_string(),
    };
    insert(random, parts, part);
}

fn insert(random: &mut Random, parts: &mut Vec<String>, part: String) {
    let to = random.below(parts.len() + 1);
    parts.insert(to, part);
}

/// A policy text of many names, with one of them again at the end or none.
pub fn long_list(random: &mut Random, most: usize) -> Vec<u8> {
    let octets = match random.percent(50) {
        true => most,
        false => random.between(40, most),
    };
    tag_list(random.pick(LIST_ENDS), octets)
}
