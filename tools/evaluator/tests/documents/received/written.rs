//! The texts that Ask 9 can write, as a set of words.

use super::slow::{all, any, one, or, times, within, Words};

/// An element with these words in it.
fn element(name: &str, words: Words) -> Words {
    all(&[one(&format!("<{name}>")), words, one(&format!("</{name}>"))])
}

fn optional(words: Words) -> Words {
    or(&[words, one("")])
}

fn one_of(words: &[&str]) -> Words {
    or(&words.iter().map(|word| one(word)).collect::<Vec<_>>())
}

/// "1..4096 octets 32-126 escaped"
fn text() -> Words {
    let plain = any(|octet| (32..=126).contains(&octet) && !b"&<>".contains(&octet));
    let octet = or(&[plain, one_of(&["&amp;", "&lt;", "&gt;"])]);
    times(&octet, 1, 4096)
}

fn id() -> Words {
    times(&any(|octet| octet.is_ascii_alphanumeric()), 1, 64)
}

/// "D = domain rule, lower case"
fn domain() -> Words {
    let octet = any(|octet| {
        octet.is_ascii_lowercase() || octet.is_ascii_digit() || octet == b'-' || octet == b'_'
    });
    let label = times(&octet, 1, 63);
    let more = all(&[one("."), label.clone()]);
    within(all(&[label, times(&more, 0, 126)]), 253)
}

fn digit() -> Words {
    any(|octet| octet.is_ascii_digit())
}

/// From 1 to the number of these digits.
fn from_one_to(most: &str) -> Words {
    let nonzero = any(|octet| (b'1'..=b'9').contains(&octet));
    let fewer = all(&[nonzero, times(&digit(), 0, most.len() - 2)]);
    let mut ways = vec![fewer, one(most)];
    for (at, own) in most.char_indices() {
        let least = if at == 0 { '1' } else { '0' };
        let lower: Vec<String> = (least..own).map(String::from).collect();
        let lower: Vec<&str> = lower.iter().map(String::as_str).collect();
        let rest = times(&digit(), most.len() - at - 1, most.len() - at - 1);
        ways.push(all(&[one(&most[..at]), one_of(&lower), rest]));
    }
    or(&ways)
}

/// Numbers from 1 up to a width, or of any width.
fn number(most: &str, any_width: bool) -> Words {
    let nonzero = any(|octet| (b'1'..=b'9').contains(&octet));
    match any_width {
        true => all(&[nonzero, times(&digit(), 0, usize::MAX)]),
        false => from_one_to(most),
    }
}

fn time(any_width: bool) -> Words {
    or(&[one("0"), number("18446744073709551615", any_width)])
}

fn dotted() -> Words {
    let octet = or(&[one("0"), from_one_to("255")]);
    let more = all(&[one("."), octet.clone()]);
    all(&[octet, times(&more, 3, 3)])
}

/// A group that is neither 0 nor, if so said, ffff.
fn group(but_ffff: bool) -> Words {
    let hex = any(|octet| octet.is_ascii_digit() || (b'a'..=b'f').contains(&octet));
    let nonzero = any(|octet| (b'1'..=b'9').contains(&octet) || (b'a'..=b'f').contains(&octet));
    let below_f = any(|octet| octet.is_ascii_digit() || (b'a'..=b'e').contains(&octet));
    let first = any(|octet| (b'1'..=b'9').contains(&octet) || (b'a'..=b'e').contains(&octet));
    if !but_ffff {
        return all(&[nonzero, times(&hex, 0, 3)]);
    }
    or(&[
        all(&[nonzero, times(&hex, 0, 2)]),
        all(&[first, times(&hex, 3, 3)]),
        all(&[one("f"), below_f.clone(), times(&hex, 2, 2)]),
        all(&[one("ff"), below_f.clone(), hex]),
        all(&[one("fff"), below_f]),
    ])
}

/// Eight groups, the first six not those of a mapped address.
fn grouped() -> Words {
    let any_group = or(&[one("0"), group(false)]);
    let more = |count: usize| times(&all(&[one(":"), any_group.clone()]), count, count);
    // The first group that is not 0, or the sixth.
    let first = |zeros: usize| {
        let zeros_before = one(&"0:".repeat(zeros));
        all(&[zeros_before, group(false), more(7 - zeros)])
    };
    let sixth = or(&[one("0"), group(true)]);
    let mut ways: Vec<Words> = (0..5).map(first).collect();
    ways.push(all(&[one("0:0:0:0:0:"), sixth, more(2)]));
    or(&ways)
}

/// Disposition and methods: those that some row is written as.
fn evaluated() -> Words {
    let mut ways = Vec::new();
    for disposition in ["none", "quarantine", "reject"] {
        for (dkim, spf) in [
            ("pass", "pass"),
            ("pass", "fail"),
            ("fail", "pass"),
            ("fail", "fail"),
        ] {
            let aligned = dkim == "pass" || spf == "pass";
            let word = if disposition == "none" && aligned {
                "pass"
            } else {
                disposition
            };
            ways.push(all(&[
                element("disposition", one(word)),
                element("dkim", one(dkim)),
                element("spf", one(spf)),
            ]));
        }
    }
    or(&ways)
}

fn results() -> Words {
    let result = || element("result", one_of(&["fail", "pass", "temperror"]));
    let selector = element("selector", domain());
    let dkim = element(
        "dkim",
        all(&[element("domain", domain()), selector, result()]),
    );
    let spf = element("spf", all(&[element("domain", domain()), result()]));
    or(&[times(&dkim, 0, 16), all(&[times(&dkim, 0, 15), spf])])
}

fn record(any_width: bool) -> Words {
    let row = all(&[
        element("source_ip", or(&[dotted(), grouped()])),
        element("count", number("4294967295", any_width)),
        element("policy_evaluated", evaluated()),
    ]);
    let author = element("header_from", domain());
    let parts = [
        element("row", row),
        element("identifiers", author),
        element("auth_results", results()),
    ];
    element("record", all(&parts))
}

fn metadata(any_width: bool) -> Words {
    let times = all(&[
        element("begin", time(any_width)),
        element("end", time(any_width)),
    ]);
    all(&[
        element("org_name", text()),
        element("email", text()),
        optional(element("extra_contact_info", text())),
        element("report_id", id()),
        element("date_range", times),
    ])
}

fn policy() -> Words {
    let policy = |name: &str| element(name, one_of(&["none", "quarantine", "reject"]));
    all(&[
        element("domain", domain()),
        policy("p"),
        optional(policy("sp")),
        optional(policy("np")),
        element("adkim", one_of(&["r", "s"])),
        element("aspf", one_of(&["r", "s"])),
        element("testing", one_of(&["n", "y"])),
    ])
}

/// All of them, with numbers of their widths or of any.
pub fn reports(any_width: bool) -> Words {
    all(&[
        one(r#"<?xml version="1.0" encoding="UTF-8"?>"#),
        one(r#"<feedback xmlns="urn:ietf:params:xml:ns:dmarc-2.0">"#),
        element("report_metadata", metadata(any_width)),
        element("policy_published", policy()),
        times(&record(any_width), 1, 256),
        one("</feedback>"),
    ])
}
