//! Readings 166 to 168: numbers at their widths, an end below begin, texts that end
//! early, and what comes after a refusal or an end.

use super::{after, front_of, refused, whole, with};
use crate::case::refusal;
use crate::day::day;
use evaluator::received::{Reader, Told};

/// The refusal of a report with this in an element, at an octet of it.
fn refused_at(name: &str, content: &str, number: u8, place: usize) {
    let text = with(name, content);
    let expected = refusal(number, front_of(name, "").len() + place);
    assert_eq!(whole(text.as_bytes()).1, Some(expected), "{content}");
}

fn read(name: &str, content: &str) {
    assert_eq!(whole(with(name, content).as_bytes()).1, None, "{content}");
}

#[test]
fn point_166_counts() {
    for count in [1_u32, 9, 10, 4_294_967_294, 4_294_967_295] {
        let (rows, refusal) = whole(with("count", &count.to_string()).as_bytes());
        assert_eq!((rows[0].count, refusal), (count, None));
    }
    refused_at("count", "4294967296", 21, 9);
    refused_at("count", "4294967300", 21, 9);
    refused_at("count", "5000000000", 21, 9);
    refused_at("count", "9999999999", 21, 9);
    refused_at("count", "42949672950", 21, 10);
    refused_at("count", "10000000000", 21, 10);
    refused_at("count", "18446744073709551616", 21, 10);
    refused_at("count", "0", 20, 0);
    refused_at("count", "01", 20, 0);
    refused_at("count", "-1", 20, 0);
    refused_at("count", "+1", 20, 0);
    refused_at("count", "", 20, 0);
    refused_at("count", "1 ", 20, 1);
    refused_at("count", "1.0", 20, 1);
}

#[test]
fn point_166_begins_and_ends() {
    let widest = "18446744073709551615";
    for text in ["0", "1", "1699999999"] {
        read("begin", text);
    }
    for text in ["18446744073709551614", widest] {
        read("end", text);
        refused_at("begin", text, 20, 20 + "</begin><end>1700086399".len());
    }
    for name in ["begin", "end"] {
        refused_at(name, "18446744073709551616", 21, 19);
        refused_at(name, "18446744073709551620", 21, 19);
        refused_at(name, "20000000000000000000", 21, 19);
        refused_at(name, "184467440737095516150", 21, 20);
        refused_at(name, "100000000000000000000", 21, 20);
        refused_at(name, "99999999999999999999", 21, 19);
        refused_at(name, "00", 20, 1);
        refused_at(name, "01", 20, 1);
        refused_at(name, "000000000000000000000", 20, 1);
        refused_at(name, "", 20, 0);
        refused_at(name, "a", 20, 0);
    }
}

#[test]
fn point_166_other_numbers() {
    refused_at("source_ip", "1.256.1.1", 20, 4);
    refused_at("source_ip", "1.1000.1.1", 20, 5);
    refused_at("source_ip", "256.1.1.1", 20, 3);
    refused_at("source_ip", "12345:0:0:0:0:0:0:0", 20, 4);
    refused_at("source_ip", "1:23456:0:0:0:0:0:0", 20, 6);
    refused_at("source_ip", "01.1.1.1", 20, 1);
    refused_at("source_ip", "1.1.1.01", 20, 7);
    refused_at("source_ip", "1.1.1.1.1", 20, 7);
    refused_at("source_ip", "1.1.1", 20, 5);
    refused_at("source_ip", "1:2:3:4:5:6:7", 20, 13);
    refused_at("source_ip", "1:2:3:4:5:6:7:8:9", 20, 15);
    refused_at("source_ip", "::1", 20, 0);
    refused_at("source_ip", "2001:db8::1", 20, 9);
    refused_at("source_ip", "1.2:3", 20, 3);
    refused_at("source_ip", "1:2.3", 20, 3);
    refused_at("source_ip", "0:0:0:0:0:ffff:c000:201", 20, 13);
    refused_at("source_ip", "0:0:0:0:0:ffff:192.0.2.1", 20, 13);
    refused_at("source_ip", "1..2.3", 20, 2);
    refused_at("source_ip", "", 20, 0);
}

/// The source of a report with this address.
fn source(text: &str) -> [u8; 16] {
    whole(with("source_ip", text).as_bytes()).0[0].source
}

#[test]
fn sources() {
    let mapped = [0, 0, 0, 0, 0, 0, 0, 0, 0, 0, 255, 255, 255, 0, 10, 199];
    assert_eq!(source("255.0.10.199"), mapped);
    let groups = [
        0x20, 1, 0xd, 0xb8, 0, 0, 0, 0x10, 1, 0, 0x10, 0, 0xff, 0xff, 0, 1,
    ];
    assert_eq!(source("2001:db8:0:10:100:1000:ffff:1"), groups);
    assert_eq!(source("0:0:0:0:0:0:0:0"), [0; 16]);
    let nearly = [0, 0, 0, 0, 0, 0, 0, 0, 0, 0, 0xff, 0xfe, 0xc0, 0, 2, 1];
    assert_eq!(source("0:0:0:0:0:fffe:c000:201"), nearly);
    let behind = [0, 0, 0, 0, 0, 0, 0, 0, 0, 0, 0, 1, 255, 255, 255, 255];
    assert_eq!(source("0:0:0:0:0:1:ffff:ffff"), behind);
    // Digits of an octet and of a group.
    assert_eq!(source("10:0:0:0:0:0:0:0")[..2], [0, 0x10]);
    assert_eq!(source("10.0.0.0")[12..], [10, 0, 0, 0]);
}

#[test]
fn point_167_an_end_below_begin() {
    for (begin, end) in [("1", "0"), ("10", "9"), ("1700000000", "1699999999")] {
        let front = front_of("begin", &format!("{begin}</begin><end>{end}"));
        assert_eq!(refused(&front, '<'), (20, front.len()));
        assert_eq!(refused(&front, 'x'), (20, front.len()));
        // One digit more is another end.
        if end != "0" {
            after(&format!("{front}0</end>"));
        }
    }
    for (begin, end) in [
        ("0", "0"),
        ("7", "7"),
        ("9", "10"),
        ("0", "18446744073709551615"),
    ] {
        after(&front_of(
            "begin",
            &format!("{begin}</begin><end>{end}</end>"),
        ));
    }
    // "begin and end judged apart": no end is above this begin.
    let widest = front_of("begin", "18446744073709551615</begin><end>2");
    assert_eq!(refused(&widest, '<'), (20, widest.len()));
}

#[test]
fn point_168_texts_that_end_early() {
    let text = day().text();
    assert_eq!(whole(b""), (vec![], Some(refusal(22, 0))));
    for length in 0..text.len() {
        let (_, given) = whole(&text.as_bytes()[..length]);
        assert_eq!(given, Some(refusal(22, length)));
    }
    assert_eq!(whole(text.as_bytes()).1, None);
    // No octet is refused, and nothing is missing before the end is declared.
    let mut reader = after(&text[..500]);
    assert_eq!(reader.step(b"").told, Told::More);
    assert_eq!(reader.end(), Err(refusal(22, 500)));
}

#[test]
fn point_168_octets_behind_the_text() {
    let text = day().text();
    for octet in 0..=255 {
        let (rows, given) = whole(&[text.as_bytes(), &[octet]].concat());
        assert_eq!((rows.len(), given), (1, Some(refusal(20, 879))));
    }
}

/// What a reader gives to every later part and end.
fn stays(mut reader: Reader, number: u8, place: usize) {
    let expected = refusal(number, place);
    let rest = day().text().split_off(place.min(879));
    for part in ["", "<", "x", rest.as_str(), "\0"] {
        let step = reader.step(part.as_bytes());
        assert_eq!((step.read, step.told), (0, Told::Refused(expected)));
        assert_eq!(reader.end(), Err(expected));
    }
}

#[test]
fn point_168_after_a_refusal() {
    let mut outside = after("<?xml");
    assert_eq!(outside.step(b"?").told, Told::Refused(refusal(20, 5)));
    stays(outside, 20, 5);
    let front = front_of("count", "429496729");
    let mut over = after(&front);
    assert_eq!(
        over.step(b"6<").told,
        Told::Refused(refusal(21, front.len()))
    );
    stays(over, 21, front.len());
    let mut early = after(&front);
    assert_eq!(early.end(), Err(refusal(22, front.len())));
    stays(early, 22, front.len());
    let mut empty = Reader::new();
    assert_eq!(empty.end(), Err(refusal(22, 0)));
    stays(empty, 22, 0);
}

#[test]
fn point_168_after_an_accepted_end() {
    let mut reader = after(&day().text());
    for _ in 0..2 {
        assert_eq!(reader.end(), Ok(()));
        assert_eq!(reader.step(b"").told, Told::More);
    }
    assert_eq!(reader.step(b"<").told, Told::Refused(refusal(20, 879)));
    stays(reader, 20, 879);
}
