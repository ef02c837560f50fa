//! Seeded policy texts, junk texts and answers' bytes.

use super::repeats;
use crate::random::Random;
use crate::written::answer_bytes;

const POLICIES: &[&str] = &["none", "quarantine", "reject", "reject"];
const BAD_POLICIES: &[&str] = &[
    "often",
    "rejected",
    "reject now",
    "=reject",
    "n0ne",
    "\"none\"",
];
const GOOD_RUA: &[&str] = &[
    "mailto:r@example.com",
    "mailto:a@example.com, mailto:b@example.net",
    "a:%41",
    "mailto::",
    "x+y-z.1:#",
    "https://host.example/p?q=[1]&r='(2)'*~$+_=",
    "MAILTO:R@EXAMPLE.COM%21",
    ", ,mailto:r@e.com",
    "bad, mailto:x@y ,",
];
const BAD_RUA: &[&str] = &[
    "mailto:",
    ":x",
    "1a:x",
    "mailto:a%2",
    "mailto:a%2g",
    "mailto:a b",
    "mailto:\"x\"@y",
    ",",
    "mailto:r@example.com!10m",
    "r@example.com",
    "a_b:c",
    "mailto:a\\b, mailto:{x}",
    "mailto:!;b@c",
];
const UNKNOWN_TAGS: &[&str] = &[
    "fo=1",
    "ruf=mailto:f@example.com",
    "pct=50",
    "rf=afrf",
    "ri=86400",
    "x=y",
    "spx=reject",
];
/// Later parts of odd form or odd value, some of them still well-formed.
const ODD_PARTS: &[&str] = &[
    "",
    " ",
    "\t",
    "p",
    "sp",
    "=x",
    "p1=x",
    "p q=x",
    "p=",
    "sp= ",
    "sp=\t",
    "p==reject",
    "sp=no\tne",
    "sp=none\u{7f}",
    "sp=none\u{1f}",
    "np=\u{1f}reject",
    "sp=none~",
    "np=reject\u{80}",
    "np=reject\u{e9}",
    "np\u{1}=none",
    "v=DMARC2",
    "v=DMARC1",
    "t=yes",
    "t=Y",
    "psd=yes",
    "PSD=u",
    "adkim=strict",
    "ASPF=S",
    "aDkIm=S",
    "P=NONE",
    "Sp=Quarantine",
    "nP=rEJECT",
    "p=reject\t",
    "p=\treject",
    " \tsp \t=\t quarantine \t",
    "p=often",
    "sp=sometimes",
    "np=no",
    "rua=",
    "psd=n",
    "psd=y",
];
const GOOD_VERSIONS: &[&str] = &[
    "v=DMARC1",
    "V=DMARC1",
    "v = DMARC1 ",
    "v\t=\tDMARC1\t",
    "v= DMARC1",
];
const JUNK_TEXTS: &[&str] = &[
    "",
    "junk",
    "v=spf1 -all",
    " v=DMARC1; p=reject",
    "v=dmarc1; p=reject",
    "v=DMARC1 x; p=reject",
    "v=DMARC10; p=reject",
    "v=DMARC1\r\n; p=reject",
    "v DMARC1; p=reject",
    "v==DMARC1; p=reject",
    "v=DMARC; p=none",
    ";v=DMARC1; p=none",
    "p=none; v=DMARC1",
    "\tv=DMARC1",
    "w=DMARC1; p=none",
];

/// A policy text in usual form, mostly usable.
pub fn plain(random: &mut Random, psd_rate: usize) -> Vec<u8> {
    let mut tags = plain_tags(random, psd_rate);
    if random.percent(8) {
        repeats::again(random, &mut tags);
    }
    octets(&joined(random, "v=DMARC1", &tags))
}

/// A policy text in usual form but for a tag that comes again, or nearly so.
fn repeating(random: &mut Random, psd_rate: usize) -> Vec<u8> {
    let mut tags = plain_tags(random, psd_rate);
    repeats::again(random, &mut tags);
    octets(&joined(random, "v=DMARC1", &tags))
}

fn plain_tags(random: &mut Random, psd_rate: usize) -> Vec<String> {
    let mut tags = Vec::new();
    if random.percent(95) {
        tags.push(request(random, "p", 4));
    }
    if random.percent(35) {
        tags.push(request(random, "sp", 6));
    }
    if random.percent(30) {
        tags.push(request(random, "np", 6));
    }
    for (name, values, rate) in [
        ("adkim", ["r", "s"], 30),
        ("aspf", ["r", "s"], 30),
        ("psd", ["y", "n"], psd_rate),
        ("t", ["y", "n"], 15),
    ] {
        if random.percent(rate) {
            tags.push(format!("{name}={}", random.pick(&values)));
        }
    }
    if random.percent(30) {
        tags.push(rua(random));
    }
    if random.percent(12) {
        tags.push(random.pick(UNKNOWN_TAGS).to_string());
    }
    if random.percent(30) {
        random.shuffle(&mut tags);
    }
    tags
}

fn request(random: &mut Random, name: &str, bad_rate: usize) -> String {
    let bad = random.percent(bad_rate);
    let value = random.pick(if bad { BAD_POLICIES } else { POLICIES });
    format!("{name}={value}")
}

fn rua(random: &mut Random) -> String {
    let good = random.percent(60);
    format!("rua={}", random.pick(if good { GOOD_RUA } else { BAD_RUA }))
}

fn joined(random: &mut Random, version: &str, tags: &[String]) -> String {
    let separator = random.pick(&["; ", "; ", ";", " ; ", ";\t"]);
    let mut text = version.to_string();
    for tag in tags {
        text.push_str(separator);
        text.push_str(tag);
    }
    text.push_str(random.pick(&["", "", "", ";", " ;  ", "  "]));
    text
}

/// Characters up to 255 stand for the octets of their numbers, not for their UTF-8
/// form.
fn octets(text: &str) -> Vec<u8> {
    let octet = |c: char| u8::try_from(c).unwrap_or(b'?');
    text.chars().map(octet).collect()
}

/// A policy text with odd blanks, case, values and parts, at times with tags that
/// come again.
pub fn odd(random: &mut Random) -> Vec<u8> {
    let mut tags = Vec::new();
    for _ in 0..random.between(0, 7) {
        tags.push(match random.below(6) {
            0 => request(random, "p", 25),
            1 => rua(random),
            2 => random.pick(UNKNOWN_TAGS).to_string(),
            _ => random.pick(ODD_PARTS).to_string(),
        });
    }
    if random.percent(60) {
        tags.insert(0, request(random, "p", 5));
    }
    if random.percent(4) {
        let filler = "z".repeat(random.between(200, 1500));
        tags.push(format!("x={filler}"));
    }
    if random.percent(75) {
        repeats::distinct(&mut tags);
    }
    if random.percent(15) {
        repeats::again(random, &mut tags);
    }
    let version = random.pick(GOOD_VERSIONS);
    let mut text = octets(&joined(random, version, &tags));
    if random.percent(20) {
        scratched(random, &mut text);
    }
    text
}

/// Puts an octet in, or takes one out.
fn scratched(random: &mut Random, text: &mut Vec<u8>) {
    let at = random.below(text.len());
    if random.percent(50) {
        let near = random.pick(&[9, 10, 31, 32, 126, 127, 128, b';', b'=', b'v']);
        let octet = random.octet();
        text.insert(at, random.pick(&[near, octet]));
    } else if at < text.len() {
        text.remove(at);
    }
}

/// An unusable record whose rua text decides between permerror and fail.
fn rua_probe(random: &mut Random) -> Vec<u8> {
    let mut text = b"v=DMARC1; rua=".to_vec();
    for _ in 0..random.between(1, 3) {
        let scheme = random.pick(&["mailto", "a", "x+", "A-1.", "1a", "", "b_"]);
        text.extend(scheme.bytes());
        text.push(random.pick(b":::::;"));
        for _ in 0..random.between(0, 3) {
            let printing = random.between(32, 126) as u8;
            text.push(random.pick(&[printing, b'a']));
        }
        text.extend(
            random
                .pick(&["", "", "%4f", "%4", "%g1", "%", "@b"])
                .bytes(),
        );
        text.extend(random.pick(&["", ",", " , ", ",,"]).bytes());
    }
    text
}

/// A text that is no policy record.
pub fn junk(random: &mut Random) -> Vec<u8> {
    if random.percent(15) {
        let length = random.between(0, 40);
        return (0..length).map(|_| random.octet()).collect();
    }
    random.pick(JUNK_TEXTS).as_bytes().to_vec()
}

fn any(random: &mut Random, psd_rate: usize) -> Vec<u8> {
    match random.below(100) {
        0..=69 => plain(random, psd_rate),
        70..=74 => rua_probe(random),
        _ => odd(random),
    }
}

/// A policy text of any kind, or one that is no policy record.
pub fn any_text(random: &mut Random) -> Vec<u8> {
    match random.below(20) {
        0 | 1 => junk(random),
        2 | 3 => repeating(random, 20),
        4 if random.percent(20) => repeats::long_list(random, 4096),
        _ => any(random, 20),
    }
}

/// The texts of an answer: a policy record, maybe among junk or texts with a tag
/// twice, or two, or none.
fn texts(random: &mut Random, psd_rate: usize) -> Vec<Vec<u8>> {
    let mut texts = Vec::new();
    match random.below(20) {
        0 => texts.extend([any(random, psd_rate), any(random, psd_rate)]),
        1 => texts.push(junk(random)),
        2 | 3 => {
            texts.push(any(random, psd_rate));
            for _ in 0..random.between(1, 3) {
                texts.push(junk(random));
            }
            random.shuffle(&mut texts);
        }
        4 if random.percent(20) => {
            texts.push(any(random, psd_rate));
            texts.resize(random.between(10, 16), b"more".to_vec());
            random.shuffle(&mut texts);
        }
        5 | 6 => {
            texts.push(any(random, psd_rate));
            for _ in 0..random.between(1, 2) {
                texts.push(repeating(random, psd_rate));
            }
            random.shuffle(&mut texts);
        }
        _ => texts.push(any(random, psd_rate)),
    }
    texts
}

/// A readable answer's bytes, as rich as `texts`.
pub fn answer(random: &mut Random, psd_rate: usize) -> Vec<u8> {
    let texts = texts(random, psd_rate);
    encoded(random, &texts)
}

/// A readable answer with one usual policy record.
pub fn plain_answer(random: &mut Random, psd_rate: usize) -> Vec<u8> {
    let text = plain(random, psd_rate);
    encoded(random, &[text])
}

/// An answer with texts that have a tag twice, or nearly so, with a usual policy
/// record or without; at times over 4,096 octets, else readable.
pub fn repeating_answer(random: &mut Random, psd_rate: usize) -> Vec<u8> {
    let count = random.pick(&[1, 1, 1, 2, 3, 15]);
    // A text of 4,076 octets fills an answer.
    let most = random.pick(&[4076, 3500]);
    let mut texts: Vec<Vec<u8>> = match random.percent(25) {
        true => vec![repeats::long_list(random, most)],
        false => (0..count).map(|_| repeating(random, psd_rate)).collect(),
    };
    if random.percent(50) {
        texts.push(plain(random, psd_rate));
        random.shuffle(&mut texts);
    }
    encoded(random, &texts)
}

/// A readable answer with a record that lets walks go on.
pub fn wide_answer(random: &mut Random) -> Vec<u8> {
    let policy = random.pick(POLICIES);
    let text = format!("v=DMARC1; p={policy}; psd=u");
    encoded(random, &[text.into_bytes()])
}

/// Texts as TX records, cut into character-strings, oddly at times.
pub fn encoded(random: &mut Random, texts: &[Vec<u8>]) -> Vec<u8> {
    let mut records = Vec::new();
    for text in texts {
        let most = if random.percent(85) { 255 } else { 20 };
        records.push(strings(random, text, most));
    }
    answer_bytes(&records).unwrap_or_default()
}

fn strings<'a>(random: &mut Random, text: &'a [u8], most: usize) -> Vec<&'a [u8]> {
    let mut strings = Vec::new();
    let mut rest = text;
    while !rest.is_empty() {
        let length = if most == 255 {
            255
        } else {
            random.between(0, most)
        };
        let (string, after) = rest.split_at(length.min(rest.len()));
        strings.push(string);
        rest = after;
    }
    if strings.is_empty() {
        strings.push(rest);
    }
    strings
}
