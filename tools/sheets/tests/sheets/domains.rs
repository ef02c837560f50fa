//! What is said of a domain that breaks the rule.

use crate::octets::au;
use sheets::refused::meaning;

/// What is said of an author domain, which is refused.
fn said(domain: &[u8]) -> String {
    let sheet = au(1, 1, domain);
    let refusal = evaluator::sheet::verdict(&sheet).expect_err("a refusal");
    let meaning = meaning(&sheet, refusal);
    assert_eq!((refusal.number, meaning.place), (1, 0));
    let said = meaning
        .sentence
        .strip_prefix("the author domain breaks the rule: ");
    said.expect("the front").to_string()
}

const RULE: &str = "a domain has letters, digits, `-` and `_`, labels parted by single dots";

#[test]
fn every_fault() {
    let stands = |what: &str, domain: &str| format!("{what} may not stand in `{domain}`; {RULE}");
    assert_eq!(said(b""), "it is empty");
    assert_eq!(said(b"."), "it is empty");
    assert_eq!(said(b"a..b"), "`a..b` has a dot too many");
    assert_eq!(said(b".a"), "`.a` has a dot too many");
    assert_eq!(said(b"a.."), "`a.` has a dot too many");
    assert_eq!(said(b"a b.c"), stands("a blank", "a b.c"));
    assert_eq!(said(b"a.b:25"), stands("`:`", "a.b:25"));
    assert_eq!(said(b"a\x01"), stands("octet 1", "a\\x01"));
    assert_eq!(
        said(b"joe@example.com"),
        "`joe@example.com` is an address; give its domain alone: example.com"
    );
    assert_eq!(said(b"joe@"), stands("`@`", "joe@"));
    assert_eq!(
        said("b\u{fc}cher.example".as_bytes()),
        "`b\\xc3\\xbccher.example` has octets outside ASCII; \
         give the name in its A-label form, as xn--..."
    );
}

#[test]
fn lengths() {
    let label = "x".repeat(64);
    assert_eq!(
        said(format!("a.{label}").as_bytes()),
        format!("its label `{label}` has 64 octets, and 63 at the most")
    );
    let long = "x".repeat(300);
    let shown = "x".repeat(80);
    assert_eq!(
        said(long.as_bytes()),
        format!("its label `{shown}...` has 300 octets, and 63 at the most")
    );
    let only = "it has 254 octets, and 253 at the most";
    assert_eq!(said(format!("bb.{}a", "a.".repeat(125)).as_bytes()), only);
}
