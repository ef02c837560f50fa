//! Readings 22 to 34: answers, their bytes, limits and scratch.

use crate::case::{case, refusal};
use crate::octets::tx;
use evaluator::book::{Book, Step};
use evaluator::refusal::Refusal;
use evaluator::txt::{reply, texts, Answer, Reply, Status};
use evaluator::verdict::DmarcResult;

const NAME: &[u8] = b"_dmarc.example.com";

/// A book that now asks `_dmarc.example.com`.
fn asking() -> Book {
    let mut book = case("example.com").book();
    book.next_step().unwrap();
    assert_eq!(book.now_asked(), Some(NAME));
    book
}

/// Answers the asked name, with scratch of so many octets of value 170.
fn answered(status: Status, bytes: &[u8], scratch: usize) -> (Result<(), Refusal>, Vec<u8>, Book) {
    let mut book = asking();
    let mut lent = vec![170; scratch];
    let given = book.answer(NAME, Answer { status, bytes }, &mut lent);
    (given, lent, book)
}

/// What a records answer gives with enough scratch.
fn records(bytes: &[u8]) -> Result<(), Refusal> {
    answered(Status::Records, bytes, 4096).0
}

/// Checks a refused answer: nothing is written, the name still stands.
fn refused(status: Status, bytes: &[u8], scratch: usize, expected: Refusal) {
    let (given, lent, book) = answered(status, bytes, scratch);
    assert_eq!(given, Err(expected));
    assert!(lent.iter().all(|octet| *octet == 170), "scratch unchanged");
    assert_eq!(book, asking());
}

#[test]
fn point_22_scratch_under_4096_for_every_kind_of_answer() {
    refused(Status::Error, b"", 0, refusal(10, 4096));
    refused(Status::None, b"", 4095, refusal(10, 4096));
    refused(Status::Records, b"", 4095, refusal(10, 4096));
    let short = tx(&[b"abcde"]);
    refused(Status::Records, &short, 100, refusal(10, 4096));
    assert_eq!(answered(Status::Error, b"", 4096).0, Ok(()));
    assert_eq!(answered(Status::Records, &short, 5000).0, Ok(()));
}

#[test]
fn point_23_bytes_with_none_or_error_are_not_read() {
    let junk = vec![0x58; 5000];
    for status in [Status::None, Status::Error] {
        let (given, lent, book) = answered(status, &junk, 4096);
        assert_eq!(given, Ok(()));
        assert_eq!(lent, vec![170; 4096]);
        assert_eq!(book.now_asked(), None);
    }
}

#[test]
fn point_24_6_before_10_and_nothing_written_before_both() {
    refused(Status::Records, b"TX", 10, refusal(6, 0));
    let mut bytes = tx(&[b"v=DMARC1; p=none"]).repeat(15);
    bytes.extend(b"TX\0\x02\x02a");
    refused(Status::Records, &bytes, 4096, refusal(6, 0));
}

/// 16 records of 43 strings with 3,990 octets of text, and so many more.
fn sixteen_records(more: usize) -> Vec<u8> {
    let string = [b'f'; 93];
    let last = vec![b'f'; 84 + more];
    let mut bytes = tx(&[&string, &string]).repeat(15);
    let mut strings: Vec<&[u8]> = vec![&string; 12];
    strings.push(&last);
    bytes.extend(tx(&strings));
    bytes
}

#[test]
fn point_25_4096_octets_of_the_answer_as_handed_in() {
    let over = sixteen_records(0);
    assert_eq!(over.len(), 4097);
    let octets: usize = 93 * 42 + 84;
    assert_eq!(octets, 3990);
    assert_eq!(records(&over), Err(refusal(6, 0)));
    // One octet of text less is at the limit.
    let mut strings: Vec<&[u8]> = vec![&[b'f'; 93]; 12];
    strings.push(&[b'f'; 83]);
    let mut at_limit = tx(&[&[b'f'; 93], &[b'f'; 93]]).repeat(15);
    at_limit.extend(tx(&strings));
    assert_eq!(at_limit.len(), 4096);
    assert_eq!(records(&at_limit), Ok(()));
    refused(Status::Records, &sixteen_records(1), 4096, refusal(6, 0));
}

#[test]
fn point_26_16_records_in_the_whole_answer() {
    let one = tx(&[b"a"]);
    assert_eq!(records(&one.repeat(16)), Ok(()));
    refused(Status::Records, &one.repeat(17), 4096, refusal(6, 0));
    assert_eq!(records(&one.repeat(40)), Err(refusal(6, 0)));
}

#[test]
fn point_27_unreadable_answers() {
    let unreadable: [&[u8]; 11] = [
        b"T",
        b"TX",
        b"TX\0",
        b"TX\0\0",
        b"tx\0\x02\x01a",
        b"Tx\0\x02\x01a",
        b"XT\0\x02\x01a",
        b"TX\0\x03\x01a",
        b"TX\0\x02\x02a",
        b"TX\0\x03\x01a\x01",
        b"TX\0\x02\x01aTX",
    ];
    for bytes in unreadable {
        refused(Status::Records, bytes, 4096, refusal(6, 0));
        assert_eq!(texts(bytes), None, "{bytes:?}");
    }
    assert_eq!(texts(b"TX\0\x01\0"), Some(vec![Vec::new()]));
    assert_eq!(records(b"TX\0\x01\0"), Ok(()));
    let all: Vec<u8> = (0..=254).collect();
    assert_eq!(texts(&tx(&[&all, &[255]])), Some(vec![(0..=255).collect()]));
    // The 16-bit length has its high octet first.
    let long = [b'a'; 255];
    let bytes = tx(&[&long, b"b"]);
    assert_eq!(bytes.get(..4), Some(b"TX\x01\x02".as_slice()));
    assert_eq!(texts(&bytes), Some(vec![[long.as_slice(), b"b"].concat()]));
}

#[test]
fn point_28_zero_bytes_is_the_same_as_none() {
    let (given, lent, book) = answered(Status::Records, b"", 4096);
    assert_eq!(given, Ok(()));
    assert_eq!(lent, vec![170; 4096]);
    assert_eq!(book.now_asked(), None);
    let empty = Answer::records(b"");
    assert_eq!(reply(empty), Reply::NoRecord);
}

#[test]
fn point_29_scratch_holds_all_texts_run_on() {
    let bytes = [tx(&[b"ab"]), tx(&[b"v=DMARC1", b"", b"; p=none"])].concat();
    let (given, lent, _) = answered(Status::Records, &bytes, 4100);
    assert_eq!(given, Ok(()));
    assert_eq!(&lent[..18], b"abv=DMARC1; p=none");
    assert!(lent[18..].iter().all(|octet| *octet == 170));
    let twice = tx(&[b"v=DMARC1"]).repeat(2);
    let (_, lent, _) = answered(Status::Records, &twice, 4096);
    assert_eq!(&lent[..17], b"v=DMARC1v=DMARC1\xaa");
}

#[test]
fn point_31_the_name_is_compared_whole_and_in_either_case() {
    let none = Answer::NONE;
    let long = vec![b'x'; 70_000];
    let names: [&[u8]; 7] = [
        b"example.com",
        b"_dmarc.example.com..",
        b"_dmarc.com",
        b"",
        b"_dmarc.example.co",
        b"x_dmarc.example.com",
        &long,
    ];
    for name in names {
        let mut book = asking();
        let mut scratch = [0; 4096];
        assert_eq!(book.answer(name, none, &mut scratch), Err(refusal(5, 0)));
        assert_eq!(book, asking());
    }
    let mut scratch = [0; 4096];
    let given = asking().answer(b"_DMARC.Example.COM", none, &mut scratch);
    assert_eq!(given, Ok(()));
    // "For an answer: 5, 6, 10."
    let bad = Answer::records(b"TX");
    assert_eq!(asking().answer(b"com", bad, &mut []), Err(refusal(5, 0)));
}

#[test]
fn point_32_an_answer_where_nothing_was_opened() {
    let none = Answer::NONE;
    let given = Book::default().answer(NAME, none, &mut [0; 4096]);
    assert_eq!(given, Err(refusal(5, 0)));
    // Opened, but no name was asked yet.
    let mut book = case("example.com").book();
    assert_eq!(book.answer(NAME, none, &mut [0; 4096]), Err(refusal(5, 0)));
}

#[test]
fn point_33_an_answer_repeated_after_acceptance() {
    let (_, _, mut book) = answered(Status::None, b"", 4096);
    let none = Answer::NONE;
    assert_eq!(book.answer(NAME, none, &mut [0; 4096]), Err(refusal(5, 0)));
    // The name that a next step would ask at once is not asked yet.
    let next = b"_dmarc.com".as_slice();
    assert_eq!(book.answer(next, none, &mut [0; 4096]), Err(refusal(5, 0)));
    book.next_step().unwrap();
    assert_eq!(book.answer(next, none, &mut [0; 4096]), Ok(()));
    // After the verdict too.
    assert!(matches!(book.next_step(), Ok(Step::Verdict(_))));
    assert_eq!(book.answer(next, none, &mut [0; 4096]), Err(refusal(5, 0)));
}

#[test]
fn point_34_records_without_a_policy_record_act_as_none() {
    let verdict = case("example.com")
        .texts("example.com", &["v=spf1 -all", "junk", ""])
        .verdict();
    assert_eq!(verdict.result, DmarcResult::None);
    assert_eq!(verdict.asked, 2);
}
