//! Ask 9 of document 02: the two numbers of a row, flags of any octet, and lists that
//! no call gave.

use crate::beside::{authors, member, set};
use crate::case::refusal;
use crate::day::{cleared, handed};
use crate::octets::record;
use evaluator::lists::Lists;
use evaluator::refusal::Refusal;
use evaluator::rows::{DayList, Entry, Finding, Row, Seen};

const MOST: u32 = 4_294_967_295;

/// A fail of example.com.
fn entry(author: u32, set: u32) -> Entry {
    Entry {
        source: [1; 16],
        finding: Finding {
            result: 2,
            domain: b"example.com".to_vec(),
            ..Finding::default()
        },
        author,
        set,
    }
}

/// The row of such an entry.
fn row(author: u32, set: u32, count: u32) -> Row {
    let seen = Seen {
        source: [1; 16],
        author,
        set,
        ..Seen::default()
    };
    Row { seen, count }
}

/// Three author domains, and three sets: none, one identifier, and a bad one.
fn texts() -> (Vec<u8>, Vec<u8>) {
    let bad = record(b"ST", &member(2, 0, "s", "d"));
    let sets = [set(&[]), set(&[member(1, 1, "s", "d")]), bad].concat();
    (authors(&["a.example", "b.example", "a.example"]), sets)
}

/// Enters into these rows.
fn entered(list: &DayList, entry: &Entry, rows: &mut [Row]) -> Result<(), Refusal> {
    let (authors, sets) = texts();
    let lists = Lists {
        authors: &authors,
        sets: &sets,
    };
    list.enter(entry, lists, rows)
}

#[test]
fn point_158_rows_match_by_their_numbers() {
    let (list, mut rows) = (cleared(b"example.com"), [Row::default(); 4]);
    // Place 2 has the same text as place 0.
    for (author, set) in [(0, 0), (2, 0), (0, 1), (0, 0), (2, 0), (2, 1), (0, 1)] {
        assert_eq!(entered(&list, &entry(author, set), &mut rows), Ok(()));
    }
    let expected = [row(0, 0, 2), row(2, 0, 2), row(0, 1, 2), row(2, 1, 1)];
    assert_eq!(rows, expected);
    assert_eq!(entered(&list, &entry(1, 0), &mut rows), Err(refusal(12, 0)));
}

#[test]
fn point_157_28_stands_between_27_and_12() {
    let list = cleared(b"example.com");
    let numbers = [(3, 0), (0, 3), (0, 2), (MOST, 0), (0, MOST), (3, 2)];
    for (author, set) in numbers {
        let bad = entry(author, set);
        // Full rows, one of them its match, and none at all.
        let mut full = [row(author, set, MOST), row(0, 0, MOST)];
        assert_eq!(entered(&list, &bad, &mut full), Err(refusal(28, 0)));
        assert_eq!(full, [row(author, set, MOST), row(0, 0, MOST)]);
        assert_eq!(entered(&list, &bad, &mut []), Err(refusal(28, 0)));
        let mut other = bad.clone();
        other.finding.domain = b"example.org".to_vec();
        assert_eq!(entered(&list, &other, &mut []), Err(refusal(27, 0)));
        let never = DayList::default();
        assert_eq!(entered(&never, &bad, &mut []), Err(refusal(27, 0)));
        other.finding.result = 3;
        assert_eq!(entered(&list, &other, &mut []), Err(refusal(14, 0)));
    }
    let good = entry(0, 0);
    assert_eq!(entered(&list, &good, &mut []), Err(refusal(12, 0)));
    let mut full = [row(0, 0, MOST)];
    assert_eq!(entered(&list, &good, &mut full), Err(refusal(13, 0)));
}

/// Only the entry's own numbers are looked at.
#[test]
fn point_155_an_unused_bad_set_is_not_judged() {
    let list = cleared(b"example.com");
    let mut rows = [row(9, 2, 5), row(0, 0, 0)];
    assert_eq!(entered(&list, &entry(0, 1), &mut rows), Ok(()));
    assert_eq!(rows, [row(9, 2, 5), row(0, 1, 1)]);
}

#[test]
fn point_157_domains_are_not_judged_at_entry() {
    let list = cleared(b"example.com");
    let sets = set(&[member(1, 1, "", "a..b"), member(0, 0, "", "")]);
    let lists = Lists {
        authors: b"AU\0\x02..",
        sets: &sets,
    };
    let mut rows = [Row::default()];
    assert_eq!(list.enter(&entry(0, 0), lists, &mut rows), Ok(()));
    assert_eq!(rows, [row(0, 0, 1)]);
}

/// "A flag ... is set where it is not 0. Entering writes a taken row's flags as 1 or 0
/// and its `spare` as 0."
#[test]
fn flags_of_any_octet() {
    let list = cleared(b"example.com");
    for (dkim, spf) in [(1, 0), (2, 0), (255, 0), (0, 128), (7, 254), (1, 1)] {
        let mut given = entry(0, 0);
        (given.finding.dkim, given.finding.spf) = (dkim, spf);
        let mut taken = row(9, 9, 0);
        (taken.seen.dkim, taken.seen.spf, taken.seen.spare) = (9, 9, 9);
        let mut rows = [taken];
        assert_eq!(entered(&list, &given, &mut rows), Ok(()));
        let mut expected = row(0, 0, 1);
        (expected.seen.dkim, expected.seen.spf) = (u8::from(dkim != 0), u8::from(spf != 0));
        assert_eq!(rows, [expected]);
    }
}

/// "Rows match where ... both flags *as they are read*" are equal; "`spare` is neither
/// matched nor read. Raising a count changes the count alone".
#[test]
fn a_match_by_flags_as_they_are_read() {
    let list = cleared(b"example.com");
    let mut lent = row(0, 1, 4);
    (lent.seen.dkim, lent.seen.spf, lent.seen.spare) = (200, 0, 77);
    for dkim in [1, 2, 200, 255] {
        let mut given = entry(0, 1);
        given.finding.dkim = dkim;
        let mut rows = [lent, Row::default()];
        assert_eq!(entered(&list, &given, &mut rows), Ok(()));
        assert_eq!(rows, [Row { count: 5, ..lent }, Row::default()]);
    }
    // Another flag is another row.
    let mut rows = [lent];
    assert_eq!(entered(&list, &entry(0, 1), &mut rows), Err(refusal(12, 0)));
    let mut clearing = cleared(b"example.com");
    assert_eq!(clearing.clear(b"example.org", &mut rows), Ok(()));
    assert_eq!(rows, [Row { count: 0, ..lent }]);
}

#[test]
fn a_list_that_is_handed_in() {
    let mut octets = [b'x'; 253];
    octets[..11].copy_from_slice(b"EXAMPLE.com");
    for cleared in [1, 2, 128, 255] {
        let list = DayList::handed(cleared, &octets, 11);
        assert_eq!(list.domain(), Some(b"EXAMPLE.com".as_slice()));
        assert_eq!(entered(&list, &entry(0, 0), &mut [Row::default()]), Ok(()));
    }
    let never = DayList::handed(0, &octets, 11);
    assert_eq!(never, DayList::default());
    let refused = entered(&never, &entry(0, 0), &mut [Row::default()]);
    assert_eq!(refused, Err(refusal(27, 0)));
    for length in [253, 254, 255, 256, 65_535] {
        let list = DayList::handed(1, &octets, length);
        assert_eq!(list.domain(), Some(octets.as_slice()), "{length}");
    }
    // Its octets are compared as they are, whatever they are.
    let empty = handed(b"");
    let mut given = entry(0, 0);
    for domain in [b"".as_slice(), b"."] {
        given.finding.domain = domain.to_vec();
        assert_eq!(entered(&empty, &given, &mut [Row::default()]), Ok(()));
    }
    let odd = handed(b"A B\xff");
    given.finding.domain = b"a b\xff".to_vec();
    assert_eq!(entered(&odd, &given, &mut [Row::default()]), Ok(()));
    given.finding.domain = b"a b\xdf".to_vec();
    let refused = entered(&odd, &given, &mut [Row::default()]);
    assert_eq!(refused, Err(refusal(27, 0)));
}
