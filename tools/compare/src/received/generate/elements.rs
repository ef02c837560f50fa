//! Elements of a report moved, left out, doubled, or too many of them.

use std::ops::Range;

use super::put;
use crate::received::edges::{DKIM, SPF};
use sheets::random::Random;

const NAMES: &[&str] = &[
    "report_metadata",
    "org_name",
    "email",
    "extra_contact_info",
    "report_id",
    "date_range",
    "begin",
    "end",
    "policy_published",
    "domain",
    "p",
    "sp",
    "np",
    "adkim",
    "aspf",
    "testing",
    "record",
    "row",
    "source_ip",
    "count",
    "policy_evaluated",
    "disposition",
    "dkim",
    "spf",
    "identifiers",
    "header_from",
    "auth_results",
    "selector",
    "result",
];

pub fn change(random: &mut Random, text: &mut Vec<u8>) {
    match random.below(10) {
        0..=1 => identifiers(random, text),
        2 => records(random, text),
        3 => policies(random, text),
        4 => evaluated(random, text),
        5 => remove(random, text),
        6..=7 => double(random, text),
        _ => swap(random, text),
    }
}

/// The first element of a name from a place on, its tags with it.
pub fn element(text: &[u8], name: &str, from: usize) -> Option<Range<usize>> {
    let (start, end) = (format!("<{name}>"), format!("</{name}>"));
    let begin = find(text, start.as_bytes(), from)?;
    let last = find(text, end.as_bytes(), begin)?;
    Some(begin..last + end.len())
}

fn find(text: &[u8], part: &[u8], from: usize) -> Option<usize> {
    let rest = text.get(from..)?;
    let at = rest.windows(part.len()).position(|own| own == part)?;
    Some(from + at)
}

/// An element of any name, mostly from any place on.
fn any_element(random: &mut Random, text: &[u8]) -> Range<usize> {
    let name = random.pick(NAMES);
    let from = random.below(text.len() + 1);
    let element = element(text, name, from).or_else(|| element(text, name, 0));
    element.unwrap_or(0..0)
}

fn remove(random: &mut Random, text: &mut Vec<u8>) {
    let range = any_element(random, text);
    put(text, range, b"");
}

fn double(random: &mut Random, text: &mut Vec<u8>) {
    let range = any_element(random, text);
    let own = text[range.clone()].to_vec();
    put(text, range.end..range.end, &own);
}

/// An element to another place, or behind the next one.
fn swap(random: &mut Random, text: &mut Vec<u8>) {
    let range = any_element(random, text);
    let own = text[range.clone()].to_vec();
    let next = next_to(text, range.end).filter(|_| random.percent(60));
    put(text, range.clone(), b"");
    let end = match next {
        Some(next) => next.end - range.len(),
        None => any_element(random, text).end,
    };
    put(text, end..end, &own);
}

/// The element that begins at a place.
fn next_to(text: &[u8], place: usize) -> Option<Range<usize>> {
    let rest = text.get(place..)?.strip_prefix(b"<")?;
    let length = rest.iter().position(|octet| *octet == b'>')?;
    element(text, std::str::from_utf8(&rest[..length]).ok()?, place)
}

/// Elements of these names in any order, some twice or not there, each with a word.
fn any_words(random: &mut Random, names: &[&str], words: &[&str]) -> String {
    let mut names = names.to_vec();
    if random.percent(50) {
        random.shuffle(&mut names);
    }
    let mut text = String::new();
    for name in names {
        for _ in 0..random.pick(&[0, 1, 1, 1, 1, 2]) {
            text += &format!("<{name}>{}</{name}>", random.pick(words));
        }
    }
    text
}

/// The policies of the report.
fn policies(random: &mut Random, text: &mut Vec<u8>) {
    let own = element(text, "p", 0).zip(find(text, b"<adkim>", 0));
    let Some((p, adkim)) = own else {
        return;
    };
    let words = ["none", "quarantine", "reject"];
    let policies = any_words(random, &["p", "sp", "np"], &words);
    put(text, p.start..adkim, policies.as_bytes());
}

/// The disposition and methods of a record, mostly all of them in their order.
fn evaluated(random: &mut Random, text: &mut Vec<u8>) {
    let from = random.below(text.len() + 1);
    let name = "policy_evaluated";
    let own = element(text, name, from).or_else(|| element(text, name, 0));
    let disposition = random.pick(&["none", "pass", "pass", "quarantine", "reject"]);
    let [dkim, spf] = [0, 1].map(|_| random.pick(&["pass", "fail"]));
    let content = match random.percent(75) {
        true => {
            format!("<disposition>{disposition}</disposition><dkim>{dkim}</dkim><spf>{spf}</spf>")
        }
        false => any_words(random, &["disposition", "dkim", "spf"], &["pass", "fail"]),
    };
    let evaluated = format!("<{name}>{content}</{name}>");
    put(text, own.unwrap_or(0..0), evaluated.as_bytes());
}

/// Identifiers about their most, SPF last, first, twice or not there.
fn identifiers(random: &mut Random, text: &mut Vec<u8>) {
    let from = random.below(text.len() + 1);
    let own = element(text, "auth_results", from).or_else(|| element(text, "auth_results", 0));
    let dkim = DKIM.repeat(random.pick(&[0, 1, 14, 15, 15, 16, 16, 17]));
    let content = match random.below(6) {
        0..=1 => dkim,
        2..=3 => format!("{dkim}{SPF}"),
        4 => format!("{dkim}{SPF}{SPF}"),
        _ => format!("{SPF}{dkim}"),
    };
    let results = format!("<auth_results>{content}</auth_results>");
    put(text, own.unwrap_or(0..0), results.as_bytes());
}

/// Records about their most, the first one again and again.
fn records(random: &mut Random, text: &mut Vec<u8>) {
    let Some(mut first) = element(text, "record", 0) else {
        return;
    };
    let record = text[first.clone()].to_vec();
    while let Some(next) = element(text, "record", first.end) {
        first.end = next.end;
    }
    let count = random.pick(&[0, 2, 255, 256, 256, 257, 258]);
    put(text, first, &record.repeat(count));
}
