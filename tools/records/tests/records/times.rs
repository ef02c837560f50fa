//! The words of a text take a time that grows with its length, not its square.

use std::time::{Duration, Instant};

use sheets::policy_words::PolicyRecord;

/// Texts that have as many of something as they have room for.
fn texts(octets: usize) -> [(&'static str, Vec<u8>); 3] {
    let unknown = (0..).map(|number| format!("; {}=a", name(number)));
    [
        ("unknown tags", filled("", unknown, octets)),
        ("parts without a value", filled("", repeated("; x"), octets)),
        ("entries", filled("; rua=", repeated("m,"), octets)),
    ]
}

fn repeated(text: &str) -> impl Iterator<Item = String> + '_ {
    std::iter::repeat(text.to_string())
}

/// A name of five letters, a different one for each number below 456,976.
fn name(number: usize) -> String {
    let letter =
        |power| char::from(b"abcdefghijklmnopqrstuvwxyz"[number / 26_usize.pow(power) % 26]);
    ['x', letter(0), letter(1), letter(2), letter(3)]
        .iter()
        .collect()
}

fn filled(begin: &str, pieces: impl Iterator<Item = String>, octets: usize) -> Vec<u8> {
    let mut text = format!("v=DMARC1; p=reject{begin}").into_bytes();
    for piece in pieces {
        if text.len() >= octets {
            break;
        }
        text.extend(piece.bytes());
    }
    text
}

/// The least time of several rounds.
fn time(text: &[u8]) -> Duration {
    let round = |_| {
        let begun = Instant::now();
        let lines = PolicyRecord::read(text).map(|record| record.lines());
        let taken = begun.elapsed();
        assert!(lines.is_ok());
        taken
    };
    (0..9).map(round).min().unwrap_or_default()
}

/// Four times the text takes about four times as long; by squares it would be
/// sixteen times.
#[test]
fn of_long_texts() {
    for ((what, short), (_, long)) in texts(100_000).into_iter().zip(texts(400_000)) {
        let (short, long) = (time(&short), time(&long));
        assert!(long < short * 8, "{what}: {short:?} and {long:?}");
    }
}
