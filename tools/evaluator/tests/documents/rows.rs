//! Ask 1 of document 02 and readings 117 to 123, with Ask 9's two numbers and
//! readings 157 and 158: a day's rows.

use crate::case::{case, refusal, Case};
use crate::octets::E;
use evaluator::book::{Book, Step};
use evaluator::lists::Lists;
use evaluator::refusal::Refusal;
use evaluator::rows::{DayList, Entry, Finding, Row, Seen};

const DOMAIN: &[u8] = b"example.com";
const MOST: u32 = 4_294_967_295;
/// Two author domains, and two sets without identifiers.
const LISTS: Lists = Lists {
    authors: b"AU\0\x0bexample.comAU\0\x0bexample.com",
    sets: b"ST\0\0ST\0\0",
};

/// A source of its own for each number.
fn source(number: u32) -> [u8; 16] {
    let mut source = [0; 16];
    source[10..12].copy_from_slice(&[255, 255]);
    source[12..].copy_from_slice(&number.to_be_bytes());
    source
}

/// A fail of example.com from a source, disposition none.
fn entry(number: u32) -> Entry {
    Entry {
        source: source(number),
        finding: Finding {
            result: 2,
            disposition: 0,
            dkim: 0,
            spf: 0,
            domain: DOMAIN.to_vec(),
        },
        author: 0,
        set: 0,
    }
}

/// The row of such entries.
fn row(number: u32, count: u32) -> Row {
    Row {
        seen: Seen {
            source: source(number),
            ..Seen::default()
        },
        count,
    }
}

/// Rows of the sources from 0, with these counts.
fn rows(counts: &[u32]) -> Vec<Row> {
    let numbered = (0..).zip(counts);
    numbered
        .map(|(number, count)| row(number, *count))
        .collect()
}

fn counts(rows: &[Row]) -> Vec<u32> {
    rows.iter().map(|row| row.count).collect()
}

/// A list that was cleared for example.com.
fn cleared() -> DayList {
    let mut list = DayList::default();
    assert_eq!(list.clear(DOMAIN, &mut []), Ok(()));
    list
}

/// Enters a verdict that must be refused, and leaves the rows as they are.
fn refused(list: &DayList, entry: &Entry, rows: &mut [Row]) -> Refusal {
    let before = rows.to_vec();
    let refusal = list.enter(entry, LISTS, rows).expect_err("a refusal");
    assert!(rows == before);
    refusal
}

/// Enters verdicts of as many sources as get a row, up to 300.
fn filled(lent: usize) -> (Vec<Row>, u32) {
    let list = cleared();
    let mut rows = vec![Row::default(); lent];
    let mut number = 0;
    while number < 300 && list.enter(&entry(number), LISTS, &mut rows).is_ok() {
        number += 1;
    }
    if number < 300 {
        assert_eq!(refused(&list, &entry(number), &mut rows), refusal(12, 0));
    }
    (rows, number)
}

#[test]
fn point_121_no_rows() {
    assert_eq!(refused(&cleared(), &entry(0), &mut []), refusal(12, 0));
}

#[test]
fn point_121_only_256_rows_are_the_lists() {
    for (lent, taken) in [
        (0, 0),
        (1, 1),
        (255, 255),
        (256, 256),
        (257, 256),
        (260, 256),
    ] {
        let (rows, number) = filled(lent);
        assert_eq!(number, taken, "{lent} rows");
        let mut expected: Vec<Row> = (0..taken).map(|number| row(number, 1)).collect();
        expected.resize(lent, Row::default());
        assert!(rows == expected, "{lent} rows");
    }
}

#[test]
fn point_121_row_257_is_neither_matched_nor_cleared() {
    let mut list = cleared();
    let mut rows = rows(&[7; 260]);
    assert_eq!(refused(&list, &entry(256), &mut rows), refusal(12, 0));
    assert_eq!(list.enter(&entry(255), LISTS, &mut rows), Ok(()));
    assert_eq!(counts(&rows)[254..], [7, 8, 7, 7, 7, 7]);
    assert_eq!(list.clear(b"example.org", &mut rows), Ok(()));
    let expected = [[0; 256].as_slice(), &[7; 4]].concat();
    assert_eq!(counts(&rows), expected);
    // The first free row, though row 257 would match.
    let mut other = entry(256);
    other.finding.domain = b"example.org".to_vec();
    assert_eq!(list.enter(&other, LISTS, &mut rows), Ok(()));
    assert_eq!((rows[0], rows[256]), (row(256, 1), row(256, 7)));
}

#[test]
fn point_120_a_match_behind_a_free_row() {
    let mut rows = rows(&[3, 0, 4, 0]);
    assert_eq!(cleared().enter(&entry(2), LISTS, &mut rows), Ok(()));
    assert_eq!(counts(&rows), [3, 0, 5, 0]);
}

#[test]
fn point_120_a_free_row_does_not_match() {
    let mut rows = rows(&[3, 0, 0, 0]);
    assert_eq!(cleared().enter(&entry(3), LISTS, &mut rows), Ok(()));
    assert_eq!(rows, [row(0, 3), row(3, 1), row(2, 0), row(3, 0)]);
}

#[test]
fn point_120_the_first_match_counts_even_if_it_is_full() {
    let list = cleared();
    let mut rows = [row(1, 5), row(0, MOST - 1), row(0, 6), row(2, 0)];
    assert_eq!(list.enter(&entry(0), LISTS, &mut rows), Ok(()));
    assert_eq!(counts(&rows), [5, MOST, 6, 0]);
    assert_eq!(refused(&list, &entry(0), &mut rows), refusal(13, 0));
    // Without a free row it is 13 as well.
    assert_eq!(refused(&list, &entry(0), &mut rows[..3]), refusal(13, 0));
    assert_eq!(refused(&list, &entry(3), &mut rows[..3]), refusal(12, 0));
}

#[test]
fn point_120_a_match_is_equal_in_all() {
    type Change = fn(&mut Entry);
    let changes: [Change; 7] = [
        |entry| entry.source[0] ^= 1,
        |entry| entry.source[15] ^= 1,
        |entry| entry.finding.disposition = 2,
        |entry| entry.finding.dkim = 1,
        |entry| entry.finding.spf = 1,
        |entry| entry.author = 1,
        |entry| entry.set = 1,
    ];
    for change in changes {
        let (list, mut rows) = (cleared(), [row(0, 1); 2]);
        let mut other = entry(0);
        change(&mut other);
        assert_eq!(refused(&list, &other, &mut rows), refusal(12, 0));
        rows[1].count = 0;
        assert_eq!(list.enter(&other, LISTS, &mut rows), Ok(()));
        let seen = Seen {
            source: other.source,
            disposition: other.finding.disposition,
            dkim: other.finding.dkim,
            spf: other.finding.spf,
            spare: 0,
            author: other.author,
            set: other.set,
        };
        assert_eq!(rows, [row(0, 1), Row { seen, count: 1 }]);
    }
    // A pass and a fail of one disposition are one row's.
    let mut rows = [row(0, 1)];
    let mut pass = entry(0);
    pass.finding.result = 1;
    assert_eq!(cleared().enter(&pass, LISTS, &mut rows), Ok(()));
    assert_eq!(rows, [row(0, 2)]);
}

#[test]
fn a_row_of_another_disposition_number_matches_nothing() {
    let mut odd = row(0, 9);
    odd.seen.disposition = 7;
    let mut rows = [odd, odd, row(1, 0)];
    let list = cleared();
    let mut other = entry(0);
    other.finding.disposition = 7;
    assert_eq!(refused(&list, &other, &mut rows), refusal(14, 0));
    assert_eq!(list.enter(&entry(0), LISTS, &mut rows), Ok(()));
    assert_eq!(rows, [odd, odd, row(0, 1)]);
    // A free row is taken whatever stands in it.
    rows[1].count = 0;
    assert_eq!(list.enter(&entry(1), LISTS, &mut rows), Ok(()));
    assert_eq!(rows, [odd, row(1, 1), row(0, 1)]);
}

#[test]
fn point_118_a_list_never_cleared() {
    let list = DayList::default();
    assert_eq!(list.domain(), None);
    assert_eq!(refused(&list, &entry(0), &mut rows(&[1])), refusal(27, 0));
    let mut empty = entry(0);
    empty.finding.domain.clear();
    assert_eq!(refused(&list, &empty, &mut []), refusal(27, 0));
}

#[test]
fn point_119_another_policy_domain() {
    let list = cleared();
    for domain in [
        "",
        "example.org",
        "example.co",
        "example.com..",
        "www.example.com",
    ] {
        let mut other = entry(0);
        other.finding.domain = domain.into();
        // 27 before 12 and 13.
        assert_eq!(refused(&list, &other, &mut []), refusal(27, 0));
        assert_eq!(refused(&list, &other, &mut rows(&[MOST])), refusal(27, 0));
    }
    let mut same = entry(0);
    same.finding.domain = b"EXAMPLE.com".to_vec();
    let mut rows = rows(&[1]);
    assert_eq!(list.enter(&same, LISTS, &mut rows), Ok(()));
    assert_eq!(counts(&rows), [2]);
}

#[test]
fn point_119_not_a_pass_or_fail_comes_first() {
    let numbers = [
        (0, 0),
        (3, 3),
        (4, 0),
        (5, 0),
        (255, 2),
        (2, 3),
        (1, 4),
        (2, 255),
    ];
    for (result, disposition) in numbers {
        let mut other = entry(0);
        other.finding.result = result;
        other.finding.disposition = disposition;
        for list in [cleared(), DayList::default()] {
            for domain in [DOMAIN, b"example.org"] {
                other.finding.domain = domain.to_vec();
                assert_eq!(refused(&list, &other, &mut rows(&[MOST])), refusal(14, 0));
            }
        }
    }
}

#[test]
fn point_122_clearing() {
    let mut list = DayList::default();
    let mut odd = row(2, MOST);
    odd.seen.disposition = 7;
    let mut rows = [row(0, 1), row(1, 0), odd];
    assert_eq!(list.clear(b"Example.COM", &mut rows), Ok(()));
    assert_eq!(list.domain(), Some(DOMAIN));
    odd.count = 0;
    assert_eq!(rows, [row(0, 0), row(1, 0), odd]);
    assert_eq!(list.clear(b"EXAMPLE.org", &mut rows), Ok(()));
    assert_eq!(list.domain(), Some(b"example.org".as_slice()));
    assert_eq!(refused(&list, &entry(0), &mut rows), refusal(27, 0));
}

#[test]
fn point_122_a_bad_policy_domain_changes_nothing() {
    let label = "x".repeat(63);
    let long = [label.as_str(); 4].join(".");
    let bad = [
        String::new(),
        ".".to_string(),
        "example.com..".to_string(),
        "example..com".to_string(),
        "ex ample.com".to_string(),
        format!("{label}x.com"),
        long.clone(),
        format!("{long}.com"),
    ];
    for mut list in [DayList::default(), cleared()] {
        for domain in &bad {
            let (before, mut rows) = (list.clone(), rows(&[1, 0, MOST]));
            let given = list.clear(domain.as_bytes(), &mut rows);
            assert_eq!(given, Err(refusal(11, 0)), "{domain}");
            assert_eq!(counts(&rows), [1, 0, MOST]);
            assert_eq!(list, before);
        }
    }
    let longest = &long[2..];
    assert_eq!(longest.len(), 253);
    assert_eq!(cleared().clear(longest.as_bytes(), &mut []), Ok(()));
}

#[test]
fn point_123_the_sum_of_the_counts() {
    let mut list = DayList::default();
    let mut rows = rows(&[5, MOST, 7]);
    assert_eq!(list.clear(DOMAIN, &mut rows), Ok(()));
    let mut accepted = [0; 3];
    for number in 0..40 {
        let mut entry = entry(number % 5);
        entry.finding.disposition = (number % 2) as u8;
        if list.enter(&entry, LISTS, &mut rows).is_ok() {
            accepted[usize::from(entry.finding.disposition)] += 1;
        }
    }
    let total = |disposition| {
        let of = rows
            .iter()
            .filter(|row| row.seen.disposition == disposition);
        of.map(|row| row.count).sum::<u32>()
    };
    assert_eq!([total(0), total(1), total(2)], accepted);
    assert_eq!(accepted.iter().sum::<u32>(), 12);
}

/// The finding of a case that is run to its verdict, 7 at 0 on the way.
fn finding(case: &Case) -> (u8, u8, u8, u8, String) {
    let mut book = Book::default();
    assert_eq!(book.finding(), Err(refusal(7, 0)));
    assert_eq!(case.open_in(&mut book), Ok(()));
    while let Ok(Step::Ask(asked)) = book.next_step() {
        assert_eq!(book.finding(), Err(refusal(7, 0)));
        let answered = book.answer(&asked.name, case.lookup(&asked.name), &mut [0; 4096]);
        assert_eq!(answered, Ok(()));
    }
    let found = book.finding().expect("a verdict");
    let domain = String::from_utf8(found.domain).expect("a domain in ASCII");
    (
        found.result,
        found.disposition,
        found.dkim,
        found.spf,
        domain,
    )
}

#[test]
fn point_117_what_is_entered() {
    let own = || case("EXAMPLE.com").text("example.com", E);
    let com = || "example.com".to_string();
    let none = String::new;
    let pass = own().dkim("mail.example.com").spf("mail.example.com");
    assert_eq!(finding(&pass), (1, 0, 1, 0, com()));
    assert_eq!(finding(&own().spf("example.COM")), (1, 0, 0, 1, com()));
    // One aligned identifier of a kind is enough.
    let some = own()
        .dkim("other.test")
        .dkim("example.com")
        .identifier(1, 0, "example.com");
    assert_eq!(finding(&some), (1, 0, 1, 0, com()));
    assert_eq!(finding(&own().dkim("other.test")), (2, 2, 0, 0, com()));
    assert_eq!(finding(&own().support(0)), (2, 1, 0, 0, com()));
    // An unknown alignment beside an aligned one, and alone.
    let beside = own()
        .dkim("other.test")
        .error("other.test")
        .spf("example.com");
    assert_eq!(finding(&beside), (1, 0, 0, 1, com()));
    let alone = own().dkim("other.test").error("other.test");
    assert_eq!(finding(&alone), (3, 3, 0, 0, com()));
    // Not judged.
    let nothing = case("example.com").dkim("example.com");
    assert_eq!(finding(&nothing), (0, 0, 0, 0, none()));
    let error = case("example.com").error("example.com").dkim("example.com");
    assert_eq!(finding(&error), (3, 3, 0, 0, none()));
    let broken = case("example.com").text("example.com", "v=DMARC1; p=often");
    assert_eq!(finding(&broken.dkim("example.com")), (4, 0, 0, 0, com()));
}
