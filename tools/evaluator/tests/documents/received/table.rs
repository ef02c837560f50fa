//! Reading 163's table, line by line: what can stand where.

use super::{front_of, next, refused, whole, with};
use crate::day::day;

const DIGITS: &str = "0123456789";
const HEX: &str = "0123456789abcdef";
const NAME: &str = "0123456789_abcdefghijklmnopqrstuvwxyz";

/// Octets in the order of their values.
fn sorted(octets: &str) -> String {
    let mut octets: Vec<char> = octets.chars().collect();
    octets.sort();
    octets.into_iter().collect()
}

/// What can stand behind this content of an element.
fn behind(name: &str, content: &str, octets: &str) {
    let front = front_of(name, content);
    assert_eq!(next(&front), sorted(octets), "{front}");
}

#[test]
fn dotted_addresses() {
    behind("source_ip", "", HEX);
    // "256 is a good hex group"
    behind("source_ip", "256", &format!("{HEX}:"));
    behind("source_ip", "255", &format!("{HEX}.:"));
    behind("source_ip", "2550", ":");
    behind("source_ip", "0", ".:");
    behind("source_ip", "9", &format!("{HEX}.:"));
    behind("source_ip", "a", &format!("{HEX}:"));
    behind("source_ip", "1a", &format!("{HEX}:"));
    behind("source_ip", "1.", DIGITS);
    behind("source_ip", "1.0", ".");
    behind("source_ip", "1.1", &format!("{DIGITS}."));
    behind("source_ip", "1.25", "012345.");
    behind("source_ip", "1.26", ".");
    behind("source_ip", "1.24", &format!("{DIGITS}."));
    behind("source_ip", "1.3", &format!("{DIGITS}."));
    behind("source_ip", "1.30", ".");
    behind("source_ip", "1.255", ".");
    behind("source_ip", "1.2.3.", DIGITS);
    behind("source_ip", "1.2.3.4", &format!("{DIGITS}<"));
    behind("source_ip", "1.2.3.0", "<");
    behind("source_ip", "1.2.3.255", "<");
}

#[test]
fn addresses_of_groups() {
    behind("source_ip", "2001:", HEX);
    behind("source_ip", "2001:0", ":");
    behind("source_ip", "2001:db8", &format!("{HEX}:"));
    behind("source_ip", "2001:1234", ":");
    behind("source_ip", "1:2:3:4:5:6:7:", HEX);
    behind("source_ip", "1:2:3:4:5:6:7:8", &format!("{HEX}<"));
    behind("source_ip", "1:2:3:4:5:6:7:0", "<");
    behind("source_ip", "1:2:3:4:5:6:7:ffff", "<");
    behind("source_ip", "1:2:3:4:5:6:7", &format!("{HEX}:"));
}

/// "would be mapped, never written so"
#[test]
fn mapped_addresses() {
    behind("source_ip", "0:0:0:0:0:fff", "0123456789abcde:");
    behind("source_ip", "0:0:0:0:0:ff", &format!("{HEX}:"));
    behind("source_ip", "0:0:0:0:0:fffe", ":");
    behind("source_ip", "0:0:0:0:0:efff", ":");
    behind("source_ip", "0:0:0:0:fff", &format!("{HEX}:"));
    behind("source_ip", "0:0:0:0:ffff:fff", &format!("{HEX}:"));
    behind("source_ip", "0:0:0:0:0:0:fff", &format!("{HEX}:"));
    behind("source_ip", "0:0:0:0:0:1:fff", &format!("{HEX}:"));
    behind("source_ip", "0:0:0:0:0:0:0:fff", &format!("{HEX}<"));
    behind("source_ip", "1:0:0:0:0:fff", &format!("{HEX}:"));
    behind("source_ip", "0:0:0:0:1:fff", &format!("{HEX}:"));
}

#[test]
fn labels_and_domains() {
    for name in ["domain", "header_from", "selector"] {
        behind(name, "", &format!("{NAME}-"));
        behind(name, "a", &format!("{NAME}-.<"));
        behind(name, "a.", &format!("{NAME}-"));
        let label = "x".repeat(63);
        behind(name, &label[1..], &format!("{NAME}-.<"));
        behind(name, &label, ".<");
        let three = format!("{label}.{label}.{label}.");
        behind(
            name,
            &format!("{three}{}", &label[4..]),
            &format!("{NAME}-.<"),
        );
        behind(
            name,
            &format!("{three}{}", &label[3..]),
            &format!("{NAME}-<"),
        );
        behind(name, &format!("{three}{}", &label[2..]), "<");
        // A label of 63 and 252 octets.
        let short = format!("{}.{label}.{label}.{label}", &label[3..]);
        assert_eq!(short.len(), 252);
        behind(name, &short, "<");
        behind(name, &format!("{}.", &short[1..]), &format!("{NAME}-"));
    }
}

#[test]
fn dispositions_and_methods() {
    behind("disposition", "", "npqr");
    behind("disposition", "none</disposition><dkim>", "f");
    behind(
        "disposition",
        "none</disposition><dkim>fail</dkim><spf>",
        "f",
    );
    behind("disposition", "pass</disposition><dkim>", "fp");
    behind(
        "disposition",
        "pass</disposition><dkim>fail</dkim><spf>",
        "p",
    );
    behind(
        "disposition",
        "pass</disposition><dkim>pass</dkim><spf>",
        "fp",
    );
    for word in ["quarantine", "reject"] {
        let dkim = format!("{word}</disposition><dkim>");
        behind("disposition", &dkim, "fp");
        for aligned in ["fail", "pass"] {
            behind("disposition", &format!("{dkim}{aligned}</dkim><spf>"), "fp");
        }
    }
}

#[test]
fn counts_and_times() {
    behind("count", "", "123456789");
    behind("count", "1", &format!("{DIGITS}<"));
    for name in ["begin", "end"] {
        behind(name, "", DIGITS);
    }
    behind("begin", "0", "<");
    behind("end", "2", DIGITS);
}

#[test]
fn texts() {
    let printing: String = (32..=126).map(char::from).collect();
    let first: String = printing
        .chars()
        .filter(|own| !"<>".contains(*own))
        .collect();
    let later: String = printing.chars().filter(|own| *own != '>').collect();
    for name in ["org_name", "email"] {
        behind(name, "", &first);
        behind(name, "a", &later);
        behind(name, "&", "agl");
        behind(name, "&a", "m");
        behind(name, "&am", "p");
        behind(name, "&amp", ";");
        behind(name, "&amp;", &later);
        behind(name, "&l", "t");
        behind(name, "&g", "t");
        behind(name, "&gt", ";");
        behind(name, &"a".repeat(4095), &later);
        behind(name, &"a".repeat(4096), "<");
        behind(name, &"&lt;".repeat(4095), &later);
        behind(name, &"&lt;".repeat(4096), "<");
    }
    behind("email", "a</email><extra_contact_info>", &first);
    let long = "&gt;".repeat(4096);
    behind(
        "email",
        &format!("a</email><extra_contact_info>{long}"),
        "<",
    );
}

#[test]
fn ids() {
    let first = sorted(&format!(
        "{DIGITS}ABCDEFGHIJKLMNOPQRSTUVWXYZabcdefghijklmnopqrstuvwxyz"
    ));
    behind("report_id", "", &first);
    behind("report_id", "Z", &format!("{first}<"));
    behind("report_id", &"a".repeat(63), &format!("{first}<"));
    behind("report_id", &"a".repeat(64), "<");
}

#[test]
fn elements_that_can_be_left_out() {
    behind("email", "a</email><", "er");
    behind("p", "none</p><", "asn");
    behind("p", "none</p><sp>", "nqr");
    behind("p", "none</p><sp>none</sp><", "an");
    behind("p", "none</p><np>none</np><", "a");
    behind("p", "none</p><sp>none</sp><np>none</np><", "a");
    behind("policy_published", "", "<");
    behind("adkim", "", "rs");
    behind("aspf", "", "rs");
    behind("testing", "", "ny");
    behind("testing", "n</testing></policy_published><", "r");
}

#[test]
fn identifiers() {
    let dkim = "<dkim><domain>d</domain><selector>s</selector><result>pass</result></dkim>";
    let spf = "<spf><domain>d</domain><result>temperror</result></spf>";
    behind("auth_results", "<", "/ds");
    behind("auth_results", &format!("{dkim}<"), "/ds");
    behind("auth_results", &format!("{}<", dkim.repeat(15)), "/ds");
    behind("auth_results", &format!("{}<", dkim.repeat(16)), "/");
    behind("auth_results", &format!("{spf}<"), "/");
    behind("auth_results", &format!("{}{spf}<", dkim.repeat(15)), "/");
    behind("result", "", "fpt");
    behind("auth_results", "<spf><domain>d</domain><result>", "fpt");
    // scope "never"
    behind("auth_results", "<spf><domain>d</domain><", "r");
}

/// Reading 164.
#[test]
fn records() {
    let text = day().text();
    let begin = text.find("<record>").expect("a record");
    let (head, rest) = text.split_at(begin);
    let record = rest.strip_suffix("</feedback>").expect("the end");
    for (count, octets) in [(1, "/r"), (255, "/r"), (256, "/")] {
        let front = format!("{head}{}<", record.repeat(count));
        assert_eq!(next(&front), octets);
        let (rows, refusal) = whole(format!("{front}/feedback>").as_bytes());
        assert_eq!((rows.len(), refusal), (count, None));
    }
    let front = format!("{head}{}<", record.repeat(256));
    assert_eq!(refused(&front, 'r'), (20, front.len()));
    assert_eq!(next(&text), "");
}

/// "written in lower case"
#[test]
fn upper_case() {
    for (name, text) in [
        ("domain", "Example.com"),
        ("header_from", "example.coM"),
        ("selector", "S1"),
        ("source_ip", "2001:DB8:0:0:0:0:0:1"),
    ] {
        let place = text
            .find(|own: char| own.is_uppercase())
            .expect("a capital");
        let front = front_of(name, &text[..place]);
        let (rows, refusal) = whole(with(name, text).as_bytes());
        let refusal = refusal.map(|own| (own.number, own.place));
        assert_eq!((rows.len(), refusal), (0, Some((20, front.len()))));
    }
}
