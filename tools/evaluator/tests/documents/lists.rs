//! Readings 155, 157, 160 and 221: the two lists beside the rows.

use crate::beside::{authors, member, set};
use crate::octets::record;
use evaluator::lists::{Lists, Meant};
use evaluator::message::{Kind, Outcome};
use evaluator::rows::Seen;

/// What two numbers stand for in lists of these texts.
fn meant<'a>(authors: &'a [u8], sets: &'a [u8], author: u32, set: u32) -> Option<Meant<'a>> {
    let seen = Seen {
        author,
        set,
        ..Seen::default()
    };
    Lists { authors, sets }.read().meant(&seen)
}

/// The author at a place.
fn author(authors: &[u8], place: u32) -> Option<&[u8]> {
    meant(authors, b"ST\0\0", place, 0).map(|meant| meant.author)
}

/// The identifiers of the only set, in words; nothing if it cannot be taken.
fn members(body: &[u8]) -> Option<Vec<String>> {
    let sets = record(b"ST", body);
    let meant = meant(b"AU\0\0", &sets, 0, 0)?;
    let words = meant.set.iter().map(|own| {
        let kind = match own.kind {
            Kind::Spf => "spf",
            Kind::Dkim => "dkim",
        };
        let outcome = match own.outcome {
            Outcome::NotPassing => 0,
            Outcome::Pass => 1,
            Outcome::TemporaryError => 2,
        };
        let (selector, domain) = (own.selector.escape_ascii(), own.domain.escape_ascii());
        format!("{kind} {outcome} {selector}/{domain}")
    });
    Some(words.collect())
}

#[test]
fn places_count_from_0() {
    let list = authors(&["a.example", "", "c.example"]);
    assert_eq!(author(&list, 0), Some(b"a.example".as_slice()));
    assert_eq!(author(&list, 1), Some(b"".as_slice()));
    assert_eq!(author(&list, 2), Some(b"c.example".as_slice()));
    for past in [3, 4, 255, 256, 65_536, 4_294_967_295] {
        assert_eq!(author(&list, past), None, "{past}");
    }
    assert_eq!(author(b"", 0), None);
    let sets = [set(&[]), set(&[member(0, 1, "", "d")])].concat();
    let own = |place| meant(b"AU\0\0", &sets, 0, place).map(|meant| meant.set.len());
    assert_eq!([own(0), own(1), own(2)], [Some(0), Some(1), None]);
    // Both numbers are needed.
    assert_eq!(meant(b"", b"ST\0\0", 0, 0), None);
    assert_eq!(meant(b"AU\0\0", b"", 0, 0), None);
}

#[test]
fn marks_are_not_read() {
    let list = [record(b"TX", b"a"), record(&[0, 255], b"b")].concat();
    assert_eq!(author(&list, 0), Some(b"a".as_slice()));
    assert_eq!(author(&list, 1), Some(b"b".as_slice()));
    let member = record(b"??", b"\x01\x02\x01sd");
    assert_eq!(members(&member), Some(vec!["dkim 2 s/d".to_string()]));
}

#[test]
fn lengths_have_their_high_octet_first() {
    let long = vec![b'x'; 258];
    let list = [b"AU\x01\x02", long.as_slice(), b"AU\0\x01y"].concat();
    assert_eq!(author(&list, 0), Some(long.as_slice()));
    assert_eq!(author(&list, 1), Some(b"y".as_slice()));
    let longest = vec![b'x'; 65_535];
    let list = [b"AU\xff\xff", longest.as_slice()].concat();
    assert_eq!(author(&list, 0), Some(longest.as_slice()));
    assert_eq!(author(&list, 1), None);
}

/// "A record that runs past the end of the text is no record: its place and all later
/// ones are past the list."
#[test]
fn a_record_that_runs_past_the_end() {
    let first = authors(&["a"]);
    for cut in [
        b"A".as_slice(),
        b"AU",
        b"AU\0",
        b"AU\0\x01",
        b"AU\0\x02b",
        b"AU\x01\0b",
        b"AU\xff\xffbcd",
    ] {
        let list = [&first, cut].concat();
        assert_eq!(author(&list, 0), Some(b"a".as_slice()));
        assert_eq!(author(&list, 1), None, "{}", cut.escape_ascii());
        assert_eq!(author(&list, 2), None);
        // Alone it is no record at place 0 either.
        assert_eq!(author(cut, 0), None);
    }
    // What would be a record within the one that is cut is none.
    let within = b"AU\0\x09AU\0\x01b";
    assert_eq!(author(within, 0), None);
    assert_eq!(author(within, 1), None);
}

#[test]
fn identifiers_of_a_set() {
    let words = members(
        &[
            member(1, 0, "s1", "a.example"),
            member(0, 2, "", "b.example"),
            member(1, 1, "S.2.", "C.example."),
        ]
        .concat(),
    );
    let expected = [
        "dkim 0 s1/a.example",
        "spf 2 /b.example",
        "dkim 1 S.2./C.example.",
    ];
    assert_eq!(words, Some(expected.map(str::to_string).to_vec()));
    // "An empty body is a set of no identifiers."
    assert_eq!(members(b""), Some(vec![]));
}

/// "Where an octet is missing, the number is 255"; "If the selector length is past the
/// body, the selector is what is there and the domain is empty."
#[test]
fn identifiers_with_missing_octets() {
    let one = |body: &[u8]| members(&record(b"ID", body));
    assert_eq!(one(b""), None);
    assert_eq!(one(b"\x01"), None);
    assert_eq!(one(b"\x00"), None);
    let only = |words: &str| Some(vec![words.to_string()]);
    assert_eq!(one(b"\x01\x00"), only("dkim 0 /"));
    assert_eq!(one(b"\x00\x02"), only("spf 2 /"));
    assert_eq!(one(b"\x01\x01\x00"), only("dkim 1 /"));
    assert_eq!(one(b"\x01\x01\x00d"), only("dkim 1 /d"));
    assert_eq!(one(b"\x01\x01\x01s"), only("dkim 1 s/"));
    assert_eq!(one(b"\x01\x01\x02s"), only("dkim 1 s/"));
    assert_eq!(one(b"\x01\x01\xffsel.dom"), only("dkim 1 sel.dom/"));
    let longest = ["\x01\x01\u{7f}", &"s".repeat(127), "d"].concat();
    let expected = format!("dkim 1 {}/d", "s".repeat(127));
    assert_eq!(one(longest.as_bytes()), only(&expected));
}

/// "a set that 01 would refuse 3 or 4"
#[test]
fn numbers_that_are_not_listed() {
    for (kind, outcome) in [(2, 0), (255, 0), (0, 3), (1, 255), (128, 128)] {
        let bad = member(kind, outcome, "s", "d");
        assert_eq!(members(&bad), None, "{kind} {outcome}");
        let behind = [member(1, 1, "s", "d"), bad].concat();
        assert_eq!(members(&behind), None);
    }
}

#[test]
fn a_17th_identifier_or_a_second_spf() {
    let dkim = |count: usize| member(1, 0, "s", "d").repeat(count);
    let spf = member(0, 1, "", "d");
    let count = |body: &[u8]| members(body).map(|words| words.len());
    assert_eq!(count(&dkim(16)), Some(16));
    assert_eq!(count(&dkim(17)), None);
    assert_eq!(count(&[dkim(15), spf.clone()].concat()), Some(16));
    assert_eq!(count(&[dkim(16), spf.clone()].concat()), None);
    assert_eq!(count(&[spf.clone(), dkim(15)].concat()), Some(16));
    assert_eq!(count(&[spf.clone(), spf.clone()].concat()), None);
    assert_eq!(count(&[spf.clone(), dkim(3), spf.clone()].concat()), None);
    // Whatever its outcome.
    assert_eq!(
        count(&[member(0, 0, "", "d"), member(0, 2, "", "e")].concat()),
        None
    );
}

/// "The record of an identifier that runs past the set's end reads as one with no
/// octets (kind 255), so 28."
#[test]
fn an_identifier_that_runs_past_its_set() {
    let good = member(1, 1, "s", "d");
    for cut in [
        b"I".as_slice(),
        b"ID",
        b"ID\0",
        b"ID\0\x05",
        b"ID\0\x06\x01\x01\x01sd",
        b"\0\0\xff\xff",
    ] {
        assert_eq!(members(cut), None, "{}", cut.escape_ascii());
        assert_eq!(members(&[&good, cut].concat()), None);
    }
    // The next set's octets are not this one's.
    let sets = [record(b"ST", b"ID\0\x05\x01\x01"), b"\x01sd".to_vec()].concat();
    assert_eq!(meant(b"AU\0\0", &sets, 0, 0), None);
}

/// Reading 221: "a set with a bad domain before a bad number: 28, domains are left to
/// 11".
#[test]
fn domains_and_selectors_are_not_judged() {
    let words = members(&member(1, 1, "\0..", "a b"));
    assert_eq!(words, Some(vec!["dkim 1 \\x00../a b".to_string()]));
    let both = [member(1, 1, "", ""), member(9, 1, "s", "d")].concat();
    assert_eq!(members(&both), None);
}
