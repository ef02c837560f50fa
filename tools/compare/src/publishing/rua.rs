//! Rua texts that refusal 16 allows, and others.

use evaluator::publishing::MOST_RUA_OCTETS;
use sheets::random::Random;

const SCHEMES: &[&str] = &["mailto", "mailto", "https", "a", "X+y-z.1", "MAILTO", "b9"];
const BAD_SCHEMES: &[&str] = &["", "1a", "+a", "a_b", "mail to", "\u{1}"];
/// RFC 3986 unreserved and reserved characters, less `!`, `,` and `;`.
const CHARACTERS: &[u8] = b"abcxyzABCXYZ0189-._~:/?#[]@$&'()*+=";
/// What parts entries: refusal 16 allows blanks there, and the reader tabs too.
const COMMAS: &[&str] = &[",", ",", ", ", " ,", " ,  "];
/// Octets at the edges of what is allowed.
const ODD: &[u8] = b"!;;,,  \t\"%%\\^`{|}<>\0\x1f\x7f\x80\xff";
const LENGTHS: &[usize] = &[4095, 4096, 4097];

/// A rua text for a writer, mostly one that is allowed.
pub fn any(random: &mut Random) -> Vec<u8> {
    match random.below(100) {
        0..=24 => Vec::new(),
        25..=59 => allowed(random),
        60..=65 => long(random),
        66..=69 => spoiled_long(random),
        70..=72 => {
            let length = random.between(1, 12);
            (0..length).map(|_| random.octet()).collect()
        }
        _ => {
            let mut rua = allowed(random);
            spoil(random, &mut rua);
            rua
        }
    }
}

/// A short text that is allowed.
pub fn allowed(random: &mut Random) -> Vec<u8> {
    let mut rua = entry(random);
    for _ in 0..random.pick(&[0, 0, 1, 2, 3]) {
        rua.extend(random.pick(COMMAS).bytes());
        rua.extend(entry(random));
    }
    rua
}

fn entry(random: &mut Random) -> Vec<u8> {
    let mut entry = random.pick(SCHEMES).as_bytes().to_vec();
    entry.push(b':');
    for _ in 0..random.between(1, 9) {
        match random.percent(10) {
            true => entry.extend(random.pick(&["%41", "%fF", "%00"]).bytes()),
            false => entry.push(random.pick(CHARACTERS)),
        }
    }
    entry
}

/// A text near the limit, of one long entry or of many.
fn long(random: &mut Random) -> Vec<u8> {
    let octets = random.pick(LENGTHS);
    let mut rua = allowed(random);
    if random.percent(50) {
        while rua.len() + 40 < octets {
            rua.extend(random.pick(COMMAS).bytes());
            rua.extend(entry(random));
        }
    }
    rua.resize(octets, b'z');
    rua
}

/// A long text with something wrong at its end.
fn spoiled_long(random: &mut Random) -> Vec<u8> {
    let mut rua = long(random);
    if let Some(last) = rua.last_mut() {
        *last = random.pick(ODD);
    }
    rua
}

/// Makes a text wrong, or nearly so.
fn spoil(random: &mut Random, rua: &mut Vec<u8>) {
    let at = random.below(rua.len() + 1);
    match random.below(9) {
        0 => rua.insert(0, random.pick(b" \t,;")),
        1 => rua.push(random.pick(b" \t,;!%")),
        2 => rua.extend(
            random
                .pick(&[",,a:b", ", ,a:b", ",\ta:b", ",nobody", ",a:"])
                .bytes(),
        ),
        3 => {
            let scheme = random.pick(BAD_SCHEMES);
            rua.splice(0..0, format!("{scheme}:x,").into_bytes());
        }
        4 => {
            let colon = rua.iter().rposition(|octet| *octet == b':');
            rua.truncate(colon.map_or(0, |colon| colon + random.below(2)));
        }
        5 => {
            rua.truncate(at);
        }
        6 => rua.insert(at, random.octet()),
        _ => rua.insert(at, random.pick(ODD)),
    }
}

/// One entry of so many octets, which are at least four.
pub fn entry_of(octets: usize) -> Vec<u8> {
    let mut rua = b"a:b".to_vec();
    rua.resize(octets, b'b');
    rua
}

/// Many entries of so many octets in all.
pub fn entries_of(octets: usize) -> Vec<u8> {
    let mut rua = b"a:b,".repeat(octets / 4);
    rua.pop();
    rua.resize(octets, b'b');
    rua
}

/// The most octets that are allowed, one fewer and one more.
pub fn at_the_limit() -> [usize; 3] {
    [MOST_RUA_OCTETS - 1, MOST_RUA_OCTETS, MOST_RUA_OCTETS + 1]
}
