//! Ask 11 of document 02, readings 179, 180 and 220: the calls of an address
//! check, and its book.

use crate::address_case::{address, example};
use crate::case::refusal;
use crate::octets::tx;
use evaluator::address::book::{AddressBook, AddressStep};
use evaluator::address::{Outcome, Verdict};
use evaluator::txt::Answer;

fn started(policy: &[u8], entry: &[u8]) -> AddressBook {
    let mut book = AddressBook::default();
    assert_eq!(book.start(policy, entry), Ok(()));
    book
}

fn ask(book: &mut AddressBook) -> String {
    match book.next_step() {
        Ok(AddressStep::Ask(asked)) => String::from_utf8(asked.name).expect("a name in ASCII"),
        other => panic!("no ask: {other:?}"),
    }
}

/// Answers none to the name now asked.
fn none(book: &mut AddressBook) {
    let name = book.now_asked().expect("an asked name").to_vec();
    let given = book.answer(&name, Answer::NONE, &mut [0; 4096]);
    assert_eq!(given, Ok(()));
}

#[test]
fn where_nothing_was_started() {
    let mut book = AddressBook::default();
    for _ in 0..2 {
        assert_eq!(book.next_step(), Err(refusal(7, 0)));
        assert_eq!(book.result(), Err(refusal(7, 0)));
        let bad = Answer::records(b"T");
        assert_eq!(book.answer(b"", bad, &mut []), Err(refusal(5, 0)));
        assert_eq!(book.now_asked(), None);
        assert!(book.names().is_empty());
        // A refused start starts nothing.
        assert_eq!(book.start(b"", b"mailto:a@b"), Err(refusal(11, 0)));
        assert_eq!(book.start(b"a", b"mailto:b"), Err(refusal(23, 0)));
        assert_eq!(book, AddressBook::default());
    }
}

#[test]
fn a_refused_start_changes_nothing() {
    let mut book = started(b"a.test", b"mailto:x@b.test");
    assert_eq!(ask(&mut book), "_dmarc.a.test");
    let before = book.clone();
    assert_eq!(
        book.start(b"a..test", b"mailto:x@c.test"),
        Err(refusal(11, 0))
    );
    assert_eq!(
        book.start(b"c.test", b"mailto:x@c.test,"),
        Err(refusal(23, 0))
    );
    assert_eq!(book, before);
    none(&mut book);
    assert_eq!(ask(&mut book), "_dmarc.test");
}

#[test]
fn an_accepted_start_begins_another_check() {
    let mut book = started(b"a.test", b"mailto:x@b.test");
    ask(&mut book);
    none(&mut book);
    ask(&mut book);
    assert_eq!(book.start(b"a.test", b"mailto:x@b.test"), Ok(()));
    assert_eq!(book, started(b"a.test", b"mailto:x@b.test"));
    // The name that was asked counts no more, and those answered are asked again.
    let answer = book.answer(b"_dmarc.test", Answer::NONE, &mut [0; 4096]);
    assert_eq!(answer, Err(refusal(5, 0)));
    assert_eq!(ask(&mut book), "_dmarc.a.test");
    // Also after a verdict.
    assert_eq!(book.start(b"a", b"mailto:x@a"), Ok(()));
    assert_eq!(book.result().unwrap().asked, 0);
    assert_eq!(book.start(b"a", b"mailto:x@b"), Ok(()));
    assert_eq!(book.result(), Err(refusal(7, 0)));
}

#[test]
fn a_name_is_given_again_until_it_is_answered() {
    let mut book = started(b"a", b"mailto:x@b");
    for name in ["_dmarc.a", "_dmarc.b", "a._report._dmarc.b"] {
        assert_eq!(book.result(), Err(refusal(7, 0)));
        assert_eq!(ask(&mut book), name);
        let before = book.clone();
        assert_eq!(ask(&mut book), name);
        assert_eq!(book, before);
        none(&mut book);
        assert_eq!(book.now_asked(), None);
        let again = book.answer(name.as_bytes(), Answer::NONE, &mut [0; 4096]);
        assert_eq!(again, Err(refusal(5, 0)));
    }
    let verdict = Verdict {
        outcome: Outcome::No,
        asked: 3,
    };
    let before = book.clone();
    for _ in 0..2 {
        assert_eq!(book.result(), Ok(verdict));
        assert_eq!(book.next_step(), Ok(AddressStep::Verdict(verdict)));
    }
    assert_eq!(book, before);
}

#[test]
fn answers_are_refused_5_6_10_in_this_order() {
    let mut book = started(b"a", b"mailto:x@b");
    let record = tx(&[b"v=DMARC1; psd=y"]);
    let (good, bad) = (Answer::records(&record), Answer::records(b"TX\0\0"));
    // Not asked yet.
    assert_eq!(
        book.answer(b"_dmarc.a", good, &mut [0; 4096]),
        Err(refusal(5, 0))
    );
    ask(&mut book);
    let before = book.clone();
    let mut lent = [170; 4096];
    for name in ["a", "_dmarc.a..", "_dmarc.b", "a._report._dmarc.b", ""] {
        let answer = book.answer(name.as_bytes(), bad, &mut []);
        assert_eq!(answer, Err(refusal(5, 0)), "{name}");
    }
    assert_eq!(book.answer(b"_dmarc.a", bad, &mut []), Err(refusal(6, 0)));
    let many = tx(&[b"x"]).repeat(17);
    let many = Answer::records(&many);
    assert_eq!(
        book.answer(b"_dmarc.a", many, &mut lent),
        Err(refusal(6, 0))
    );
    for answer in [good, Answer::NONE, Answer::ERROR] {
        let short = book.answer(b"_dmarc.a", answer, &mut lent[..4095]);
        assert_eq!(short, Err(refusal(10, 4096)));
    }
    assert_eq!(lent, [170; 4096]);
    assert_eq!(book, before);
    // Either case, and a final dot.
    assert_eq!(book.answer(b"_DMARC.A.", good, &mut lent), Ok(()));
    assert_eq!(&lent[..16], b"v=DMARC1; psd=y\xaa");
}

/// Every answer leaves its texts in the scratch, those of the walks too.
#[test]
fn the_scratch_after_each_answer() {
    let text = "v=DMARC1; rua=mailto:y@b";
    let case = address("a", "mailto:x@b")
        .texts("_dmarc.a", &["one", "two"])
        .texts("a._report._dmarc.b", &["xyz", text]);
    let mut book = case.book();
    let mut lent = [b'-'; 4096];
    for (name, begin) in [
        ("_dmarc.a", "onetwo--".to_string()),
        // None leaves the scratch as it was.
        ("_dmarc.b", "onetwo--".to_string()),
        ("a._report._dmarc.b", format!("xyz{text}--")),
    ] {
        assert_eq!(ask(&mut book), name);
        let given = book.answer(name.as_bytes(), case.lookup(name.as_bytes()), &mut lent);
        assert_eq!(given, Ok(()));
        assert!(lent.starts_with(begin.as_bytes()), "{name}");
    }
    let outcome = Outcome::Replaced {
        begin: 17,
        length: 10,
    };
    assert_eq!(book.result(), Ok(Verdict { outcome, asked: 3 }));
    assert_eq!(&lent[17..27], b"mailto:y@b");
}

/// Bytes beside none and error are not read; records without bytes are none.
#[test]
fn kinds_of_answers() {
    let confirming = b"a._report._dmarc.b";
    for (answer, outcome) in [
        (Answer::NONE, Outcome::No),
        (Answer::ERROR, Outcome::NotKnown),
        (Answer::records(b""), Outcome::No),
        (
            Answer {
                bytes: b"junk",
                ..Answer::NONE
            },
            Outcome::No,
        ),
        (
            Answer {
                bytes: b"TX\0\x09\x08v=DMARC1",
                ..Answer::ERROR
            },
            Outcome::NotKnown,
        ),
        (Answer::records(b"TX\0\x09\x08v=DMARC1"), Outcome::Confirmed),
        (Answer::records(b"TX\0\x01\0"), Outcome::No),
    ] {
        let mut book = started(b"a", b"mailto:x@b");
        for _ in 0..2 {
            ask(&mut book);
            none(&mut book);
        }
        ask(&mut book);
        assert_eq!(book.answer(confirming, answer, &mut [0; 4096]), Ok(()));
        assert_eq!(book.result(), Ok(Verdict { outcome, asked: 3 }));
    }
}

/// The names so far are always the first of the list.
#[test]
fn names_so_far() {
    let case = example(&["v=DMARC1"]);
    let all = case.run().1;
    let mut book = case.book();
    for count in 1..=all.len() {
        assert_eq!(book.names(), all[..count]);
        ask(&mut book);
        assert_eq!(book.names(), all[..count]);
        let name = all[count - 1].name.clone();
        let given = book.answer(&name, case.lookup(&name), &mut [0; 4096]);
        assert_eq!(given, Ok(()));
    }
    assert_eq!(book.names(), all);
    assert_eq!(book.result().unwrap().asked, 7);
}

#[test]
fn the_outcomes_have_numbers_what_is_not_known_first() {
    let (begin, length) = (0, 0);
    let outcomes = [
        (Outcome::NotKnown, "not known"),
        (Outcome::No, "no"),
        (Outcome::Inside, "inside"),
        (Outcome::Confirmed, "confirmed"),
        (Outcome::Replaced { begin, length }, "replaced"),
    ];
    for (number, (outcome, word)) in (0..).zip(outcomes) {
        assert_eq!((outcome.number(), outcome.word()), (number, word));
    }
}
