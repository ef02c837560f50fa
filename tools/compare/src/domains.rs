//! Domains: good ones, bad ones, other spellings, and ones near another.

use sheets::random::Random;

const LABELS: &[&str] = &["example", "com", "mail", "x-1", "_s", "9", "Bank", "news"];

/// Labels as long as can be, parted by dots: 255 octets.
fn too_long() -> Vec<u8> {
    ["x".repeat(63).as_str(); 4].join(".").into_bytes()
}

/// A good domain of 253 octets.
pub fn longest() -> Vec<u8> {
    too_long().split_off(2)
}

/// Domains that keep the rule, without a final dot.
pub fn good() -> Vec<Vec<u8>> {
    let mut good: Vec<Vec<u8>> = [
        "example.com",
        "example.org",
        "example.co",
        "c",
        "a-b._9.Test",
    ]
    .map(|domain| domain.as_bytes().to_vec())
    .to_vec();
    good.push([&[b'z'; 63], b".com".as_slice()].concat());
    good.push(longest());
    good
}

/// Domains that break the rule.
pub fn bad() -> Vec<Vec<u8>> {
    let mut bad: Vec<Vec<u8>> = [
        "",
        ".",
        "..",
        "...",
        ".com",
        ".com.",
        "example.com..",
        "example.com...",
        "a..b",
        "a..b.",
        "a b.c",
        "a b.c.",
        "*.com",
    ]
    .map(|domain| domain.as_bytes().to_vec())
    .to_vec();
    // Beside letters, digits, `-` and `_`, and far from them.
    for octet in b"@[`{/:,^\0\r\x7f\x80\xe1\xff" {
        bad.push([b"a", [*octet].as_slice(), b".com"].concat());
    }
    bad.push([&[b'z'; 64], b".com".as_slice()].concat());
    bad.push([b"a.", [b'z'; 64].as_slice()].concat());
    bad.push(too_long().split_off(1));
    bad.push([too_long().split_off(1), b".".to_vec()].concat());
    bad.push([longest(), b"..".to_vec()].concat());
    bad.push(too_long());
    bad.push([too_long(), b".com".repeat(20)].concat());
    bad
}

/// Good domains in either case and with one and two final dots, and bad ones.
pub fn spelled() -> Vec<Vec<u8>> {
    let mut spelled = bad();
    for domain in good() {
        spelled.push(domain.to_ascii_uppercase());
        spelled.push([domain.as_slice(), b"."].concat());
        spelled.push([domain.as_slice(), b".."].concat());
        spelled.push(domain);
    }
    spelled
}

/// One of these, or nothing.
pub fn one(random: &mut Random, domains: &[Vec<u8>]) -> Vec<u8> {
    let at = random.below(domains.len());
    domains.get(at).cloned().unwrap_or_default()
}

/// A good domain in any spelling: of a few short labels, or one of the good ones.
pub fn any_good(random: &mut Random) -> Vec<u8> {
    let domain = match random.percent(85) {
        true => {
            let count = random.between(1, 3);
            let labels: Vec<&str> = (0..count).map(|_| random.pick(LABELS)).collect();
            labels.join(".").into_bytes()
        }
        false => one(random, &good()),
    };
    any_spelling(random, &domain)
}

/// A domain in any case, now and then with a final dot.
pub fn any_spelling(random: &mut Random, domain: &[u8]) -> Vec<u8> {
    let mut spelled = any_case(random, domain);
    if random.percent(15) {
        spelled.push(b'.');
    }
    spelled
}

fn any_case(random: &mut Random, domain: &[u8]) -> Vec<u8> {
    match random.below(4) {
        0 => domain.to_ascii_lowercase(),
        1 => domain.to_ascii_uppercase(),
        2 => domain.to_vec(),
        _ => {
            let mut mixed = domain.to_vec();
            for octet in &mut mixed {
                if random.percent(50) && octet.is_ascii_alphabetic() {
                    *octet ^= 0x20;
                }
            }
            mixed
        }
    }
}

/// A text near a domain, now and then the same in another spelling.
pub fn near(random: &mut Random, domain: &[u8]) -> Vec<u8> {
    let mut text = domain.to_vec();
    match random.below(9) {
        0 => text.push(b'.'),
        5 => text.extend(b".."),
        1 => text.push(b'x'),
        2 => text.insert(0, b'x'),
        3 => {
            text.pop();
        }
        4 => text.clear(),
        _ => {
            let bit = random.pick(&[0x20, 0x20, 0x40, 0x80, 1]);
            let at = random.below(text.len());
            if let Some(octet) = text.get_mut(at) {
                *octet ^= bit;
            }
        }
    }
    text
}
