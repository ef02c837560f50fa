//! Openings that are refused, and identifiers that are.

use super::call::{AddCall, OpenCall};
use super::long::longer;

/// Openings that are refused.
pub fn openings() -> Vec<OpenCall> {
    let mut calls = refused_authors();
    calls.extend(refused_numbers());
    calls
}

/// Refusal 1, in each way and at several places, before 3.
fn refused_authors() -> Vec<OpenCall> {
    let long_label = "x".repeat(64);
    let mut authors: Vec<Vec<u8>> = [
        "",
        ".",
        ".com",
        "..",
        "...",
        "com..",
        "com...",
        ".com.",
        "a..b",
        "a b.",
        "a b",
        "ab.c@d.e",
        "a.b.c.\0",
        "good.bad!",
        "a.\u{e9}.b",
    ]
    .map(|author| author.as_bytes().to_vec())
    .to_vec();
    authors.push(b"a.\xff".to_vec());
    authors.push(long_label.clone().into_bytes());
    authors.push(format!("ok.{long_label}.com").into_bytes());
    authors.push(format!("{long_label}.").into_bytes());
    authors.push(longer("com..", 255).into_bytes());
    authors.push(longer("com", 254).into_bytes());
    authors.push(longer("com.", 255).into_bytes());
    authors.push(longer("com", 255).into_bytes());
    authors.push(longer("c m", 255).into_bytes());
    authors.push(longer("com", 400).into_bytes());
    authors.push(longer("c m", 303).into_bytes());
    let mut calls: Vec<OpenCall> = authors.iter().map(|author| OpenCall::of(author)).collect();
    calls.push(OpenCall {
        author: b"a.b..c".to_vec(),
        existence: 3,
        support: 2,
    });
    calls
}

/// Refusal 3 of the message.
fn refused_numbers() -> Vec<OpenCall> {
    let numbers = [(3, 1), (255, 0), (1, 2), (2, 255), (3, 2)];
    numbers
        .map(|(existence, support)| OpenCall {
            author: b"other.test".to_vec(),
            existence,
            support,
        })
        .to_vec()
}

/// Refusals 3, 4 and 2 of an identifier, in this order: those that were accepted
/// before it, and the one that is refused.
pub fn identifiers() -> Vec<(Vec<AddCall>, AddCall)> {
    let item = AddCall::new;
    let good = item(1, 1, b"example.com");
    let spf = item(0, 0, b"example.com");
    let bad = item(1, 1, b"example..com");
    let dotted = item(1, 1, b"example.com.");
    let sixteen = [vec![spf.clone()], vec![good.clone(); 15]].concat();
    let one = |only: &AddCall| vec![only.clone()];
    let long = |ending: &str, octets| item(1, 0, longer(ending, octets).as_bytes());
    vec![
        (vec![], item(2, 1, b"example.com")),
        (vec![], item(1, 3, b"example.com")),
        (vec![good.clone(), spf.clone()], item(255, 255, b"")),
        (one(&good), item(2, 0, b"a..b")),
        // A second SPF, whatever its outcome and domain.
        (one(&spf), spf.clone()),
        (vec![spf.clone(), good.clone()], item(0, 1, b"a..b")),
        (one(&spf), item(0, 3, b"a.b")),
        // A 17th identifier.
        (sixteen.clone(), good.clone()),
        (sixteen.clone(), bad.clone()),
        (sixteen.clone(), spf.clone()),
        (sixteen.clone(), item(2, 1, b"a.b")),
        (vec![good.clone(); 16], item(0, 1, b"a..b")),
        // Bad domains.
        (vec![], bad.clone()),
        (one(&good), bad),
        (vec![], item(0, 0, b"")),
        (vec![], item(1, 2, b"a.b..")),
        (vec![], item(1, 1, b".")),
        (one(&good), item(0, 1, b"..")),
        (one(&dotted), item(1, 0, b"a...")),
        (one(&dotted), long("com.", 255)),
        (one(&good), long("c,m", 252)),
        (vec![], long("com", 254)),
        (one(&spf), long("com", 600)),
    ]
}
