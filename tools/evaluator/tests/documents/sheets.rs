//! Readings 101 to 116: sheets.

use crate::octets::{an, an_error, an_none, an_text, au, id, printed, record, run, tx, E};

fn author() -> Vec<u8> {
    au(1, 1, b"example.com")
}

/// An answer that is never asked, of so many octets in all.
fn filler(octets: usize) -> Vec<u8> {
    let name = b"_dmarc.fill";
    let filler = an(0, name, &vec![b'f'; octets - 4 - 2 - name.len()]);
    assert_eq!(filler.len(), octets);
    filler
}

fn refused(sheet: &[u8], number: u8, place: usize) {
    assert_eq!(run(sheet), format!("refused {number} at {place}\n"));
}

/// A sheet of `example.com` without any answer to its name.
fn unanswered(sheet: &[u8]) {
    let expected = printed(&["example.com"], "temperror unknown defer");
    assert_eq!(run(sheet), expected);
}

#[test]
fn point_101_the_first_8_before_any_other_refusal() {
    let head = [au(1, 1, b"a..b"), id(1, 9, b"x")].concat();
    let sheet = [head.clone(), filler(300 - head.len()), record(b"XX", b"")].concat();
    refused(&sheet, 8, 300);
    // Records after the first broken one do not matter.
    let more = [sheet, record(b"YY", b""), record(b"AU", b"")].concat();
    refused(&more, 8, 300);
    // A second answer before another fault, and after it.
    let twice = [author(), an_none("a"), an_none("A"), record(b"XX", b"")].concat();
    refused(&twice, 8, 17 + 7);
    let later = [author(), an_none("a"), record(b"XX", b""), an_none("a")].concat();
    refused(&later, 8, 17 + 7);
}

#[test]
fn point_102_over_65536_octets() {
    let head = [author(), filler(65_000 - 17)].concat();
    assert_eq!(head.len(), 65_000);
    let padded = |parts: &[&[u8]], octets: usize| {
        let mut sheet = parts.concat();
        assert!(sheet.len() <= octets);
        sheet.resize(octets, 0);
        sheet
    };
    let long = record(b"XX", &[0; 1000]);
    refused(&padded(&[&head, &long], 70_000), 8, 65_536);
    let short = record(b"XX", &[0; 500]);
    refused(&padded(&[&head, &short], 70_000), 8, 65_000);
    // A record that ends exactly at 65,536 is judged.
    let exact = record(b"XX", &[0; 532]);
    refused(&padded(&[&head, &exact], 70_000), 8, 65_000);
    let one_over = record(b"XX", &[0; 533]);
    refused(&padded(&[&head, &one_over], 70_000), 8, 65_536);
    // A second answer that ends by there is wrong too.
    let second = an_none("_DMARC.fill");
    refused(&padded(&[&head, &second], 70_000), 8, 65_000);
    // An earlier fault comes first.
    refused(&padded(&[&id(1, 1, b"a"), &head], 70_000), 8, 0);
    // A body past the end of an over-long sheet.
    let past = padded(&[&head, b"AN\xff\xff"], 65_600);
    refused(&past, 8, 65_536);
}

#[test]
fn point_102_at_65536_octets() {
    let at = |octets: usize| [author(), filler(octets - 17)].concat();
    let whole = [au(1, 1, b"example.com"), filler(60_000), filler_b(5_519)].concat();
    assert_eq!(whole.len(), 65_536);
    unanswered(&whole);
    let over = [whole.clone(), vec![0]].concat();
    refused(&over, 8, 65_536);
    let over = [whole, an_none("_dmarc.more")].concat();
    refused(&over, 8, 65_536);
    // The last few octets are no record that ends by 65,536.
    let cut = [at(65_534), vec![0; 3]].concat();
    assert_eq!(cut.len(), 65_537);
    refused(&cut, 8, 65_536);
    // Not over: octets left over.
    let left = [at(65_534), vec![0; 2]].concat();
    refused(&left, 8, 65_534);
}

/// Another answer that is never asked.
fn filler_b(octets: usize) -> Vec<u8> {
    let name = b"_dmarc.fill-b";
    an(0, name, &vec![b'f'; octets - 4 - 2 - name.len()])
}

#[test]
fn point_103_a_body_too_short() {
    refused(b"AU\0\x02\x01\x01", 1, 0);
    refused(b"AU\0\x01\x01", 8, 0);
    refused(b"AU\0\0", 8, 0);
    refused(&[author(), record(b"ID", b"\x01\x01")].concat(), 2, 0);
    refused(&[author(), record(b"ID", b"\x01")].concat(), 8, 17);
    refused(&[author(), record(b"ID", b"")].concat(), 8, 17);
    refused(&[author(), record(b"AN", b"\x01")].concat(), 8, 17);
    refused(&[author(), record(b"AN", b"")].concat(), 8, 17);
    refused(&[author(), record(b"AN", b"\x01\x04com")].concat(), 8, 17);
    let whole = [author(), record(b"AN", b"\x01\x03com")].concat();
    unanswered(&whole);
}

#[test]
fn point_104_octets_after_the_name() {
    for status in 1..=2 {
        let sheet = [author(), an(status, b"com", b"x")].concat();
        refused(&sheet, 8, 17);
    }
    let sheet = [author(), an_none("com"), an(1, b"org", &tx(&[b"a"]))].concat();
    refused(&sheet, 8, 17 + 9);
}

#[test]
fn point_105_octets_left_over_and_past_the_end() {
    for left in 1..=3 {
        refused(&[author(), vec![b'A'; left]].concat(), 8, 17);
    }
    refused(&[author(), b"AN\0\x05".to_vec()].concat(), 8, 17);
    refused(&[author(), b"AN\0\x06\x01\x03com".to_vec()].concat(), 8, 17);
    // Truncated anywhere, but between records.
    let sheet = [author(), an_none("com")].concat();
    for length in (0..17).chain(18..26) {
        let place = if length < 17 { 0 } else { 17 };
        refused(&sheet[..length], 8, place);
    }
    unanswered(&sheet[..17]);
    unanswered(&sheet);
}

#[test]
fn point_106_the_name_of_an_answer() {
    let labels = |last: usize| {
        let label = "x".repeat(63);
        [label.as_str(), &label, &label, &"y".repeat(last)].join(".")
    };
    for name in [
        labels(62),
        labels(63),
        String::new(),
        "a..b".into(),
        "a b".into(),
        "a..".into(),
    ] {
        refused(&[author(), an(1, name.as_bytes(), b"")].concat(), 8, 17);
    }
    assert_eq!(labels(61).len(), 253);
    let longest = [author(), an(1, labels(61).as_bytes(), b"")].concat();
    unanswered(&longest);
    // A name without `_dmarc.` is no fault: never asked, ignored.
    let plain = [author(), an_text("example.com", E)].concat();
    unanswered(&plain);
}

#[test]
fn point_107_marks_and_order() {
    refused(&[], 8, 0);
    refused(&id(1, 1, b"example.com"), 8, 0);
    refused(&an_none("_dmarc.example.com"), 8, 0);
    refused(&[id(1, 1, b"a"), author()].concat(), 8, 0);
    refused(&[author(), author()].concat(), 8, 17);
    refused(&[author(), id(1, 1, b"a"), author()].concat(), 8, 17 + 7);
    refused(
        &[author(), an_none("a"), id(1, 1, b"a")].concat(),
        8,
        17 + 7,
    );
    refused(&[author(), an_none("a"), author()].concat(), 8, 17 + 7);
    refused(&record(b"au", b"\x01\x01example.com"), 8, 0);
    refused(&[author(), record(b"id", b"\x01\x01a")].concat(), 8, 17);
    refused(&[author(), record(b"An", b"\x01\x03com")].concat(), 8, 17);
    refused(&[author(), tx(&[b"a"])].concat(), 8, 17);
}

#[test]
fn point_108_a_second_answer() {
    let name = "_dmarc.example.com";
    let first = an_text(name, E);
    let place = 17 + first.len();
    for second in [
        an_text(name, E),
        an_none("_DMARC.Example.COM"),
        an_error(name),
    ] {
        refused(&[author(), first.clone(), second].concat(), 8, place);
    }
    // Asked or not.
    let unasked = [author(), an_none("a.b"), an_none("c"), an_none("A.B")].concat();
    refused(&unasked, 8, 17 + 9 + 7);
}

#[test]
fn point_109_numbers_out_of_range() {
    refused(&au(3, 1, b"example.com"), 3, 255);
    refused(&au(1, 2, b"example.com"), 3, 255);
    refused(&au(b'1', b'1', b"example.com"), 3, 255);
    refused(&[author(), id(2, 1, b"a")].concat(), 3, 0);
    refused(&[author(), id(1, 1, b"a"), id(1, 3, b"a")].concat(), 3, 1);
    for status in [3, 255, b'0'] {
        refused(&[author(), an(status, b"com", b"")].concat(), 8, 17);
    }
}

#[test]
fn point_110_too_many_identifiers_and_places_of_1_to_4() {
    let dkim = id(1, 1, b"example.com");
    let sixteen = [author(), dkim.repeat(16)].concat();
    unanswered(&sixteen);
    refused(&[author(), dkim.repeat(17)].concat(), 4, 16);
    refused(&[author(), dkim.repeat(40)].concat(), 4, 16);
    let spf = id(0, 0, b"example.com");
    refused(
        &[author(), dkim.clone(), spf.clone(), dkim, spf].concat(),
        4,
        3,
    );
    refused(&au(1, 1, b"ok.a b.com"), 1, 3);
    refused(
        &[author(), id(1, 1, b"a"), id(1, 0, b"a..b")].concat(),
        2,
        1,
    );
}

#[test]
fn point_111_6_when_that_name_is_asked() {
    let news = au(1, 1, b"news.example.com");
    let bad = an(0, b"_dmarc.example.com", b"TX\0\0");
    // Asked second: the earlier `ask` line is not printed.
    let asked = [
        news.clone(),
        an_none("_dmarc.news.example.com"),
        bad.clone(),
    ]
    .concat();
    refused(&asked, 6, 0);
    // Never asked: ignored.
    let own = an_text("_dmarc.news.example.com", "v=DMARC1; p=none");
    let unasked = [news.clone(), own, bad].concat();
    let expected = printed(&["news.example.com"], "fail none none");
    assert_eq!(run(&unasked), expected);
    // Over a limit.
    let long = an(0, b"_dmarc.news.example.com", &tx(&[b"a"]).repeat(17));
    refused(&[news.clone(), long].concat(), 6, 0);
    let octets = tx(&[[b'f'; 255].as_slice(); 16]);
    assert_eq!(octets.len(), 4 + 4096);
    let over = an(0, b"_dmarc.news.example.com", &octets);
    refused(&[news.clone(), over].concat(), 6, 0);
    // 1 to 4 come before it.
    let spf = id(0, 1, b"a").repeat(2);
    let bad = an(0, b"_dmarc.news.example.com", b"x");
    refused(&[news, spf, bad].concat(), 4, 1);
}

#[test]
fn point_112_status_0_and_zero_bytes() {
    let sheet = [
        author(),
        an(0, b"_dmarc.example.com", b""),
        an(0, b"_dmarc.com", b""),
    ]
    .concat();
    let expected = printed(&["example.com", "com"], "none none none");
    assert_eq!(run(&sheet), expected);
}

#[test]
fn point_113_no_answer_to_an_asked_name_is_an_error() {
    unanswered(&author());
    let sheet = [author(), an_none("_dmarc.example.com")].concat();
    let expected = printed(&["example.com", "com"], "temperror unknown defer");
    assert_eq!(run(&sheet), expected);
}

#[test]
fn point_114_output() {
    // Names in lower case, an answer in either case, lines ended by LF.
    let sheet = [
        au(1, 1, b"News.EXAMPLE.com"),
        id(1, 2, b"other.org"),
        an_none("_DMARC.news.example.COM"),
        an_text("_dmarc.Example.com", "v=DMARC1; p=quarantine"),
        an_none("_dmarc.com"),
    ]
    .concat();
    let expected = printed(
        &["news.example.com", "example.com", "com"],
        "temperror quarantine defer",
    );
    assert_eq!(run(&sheet), expected);
}
