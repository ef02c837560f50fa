//! Readings 9 to 21: the domain rule, an opening, and identifiers in turn.

use crate::case::{case, refusal};
use crate::octets::{au, id, run, E};
use evaluator::book::Step;
use evaluator::domain::{fault, Domain};
use evaluator::message::Message;
use evaluator::refusal::Refusal;
use evaluator::txt::Answer;

/// How an opening ends.
fn opened(author: &[u8], existence: u8, support: u8) -> Result<(), Refusal> {
    Message::open(author, existence, support).map(|_| ())
}

/// The first refusal of these identifiers, in turn.
fn added(identifiers: &[(u8, u8, &str)]) -> Result<(), Refusal> {
    let mut message = Message::open(b"example.com", 1, 1)?;
    let mut identifiers = identifiers.iter();
    identifiers
        .try_for_each(|(kind, outcome, domain)| message.add(*kind, *outcome, domain.as_bytes()))
}

#[test]
fn point_9_labels_of_1_to_63_octets_in_any_number() {
    let text = "a.".repeat(99) + "a";
    assert_eq!(text.len(), 199);
    assert_eq!(fault(text.as_bytes()), None);
    assert_eq!(Domain::read(text.as_bytes()).unwrap().label_count(), 100);
    assert_eq!(fault("a".repeat(63).as_bytes()), None);
    assert_eq!(opened(text.as_bytes(), 1, 1), Ok(()));
}

#[test]
fn point_10_letters_digits_hyphen_and_underscore() {
    assert_eq!(fault(b"-a_.9"), None);
    assert_eq!(opened("ü.de".as_bytes(), 1, 1), Err(refusal(1, 0)));
}

#[test]
fn point_11_place_of_refusal_1() {
    let letters = |count: usize| "x".repeat(count);
    let good_254 = [letters(63), letters(63), letters(63), letters(62)].join(".");
    let bad_at_100 = "a.".repeat(50) + "!!" + &".a".repeat(76);
    let bad_at_260 = "a.".repeat(130) + "!!" + &".a".repeat(19);
    assert_eq!(good_254.len(), 254);
    assert_eq!(bad_at_100.len(), 254);
    assert_eq!(bad_at_260.len(), 300);
    let table = [
        (String::new(), 0),
        (".".to_string(), 0),
        (".a".to_string(), 0),
        // One final dot is dropped: `final_dot` has more of these.
        ("a..".to_string(), 2),
        ("a..b".to_string(), 2),
        ("ok.a b.com".to_string(), 3),
        (format!("x.{}", letters(64)), 2),
        (letters(64), 0),
        (letters(254), 0),
        (good_254, 253),
        (bad_at_100, 100),
        (bad_at_260, 260),
    ];
    for (text, place) in table {
        let given = opened(text.as_bytes(), 1, 1);
        assert_eq!(given, Err(refusal(1, place)), "{text:?}");
    }
}

#[test]
fn point_12_the_empty_last_label_begins_at_the_length() {
    assert_eq!(opened(b"a.b..", 1, 1), Err(refusal(1, 4)));
    let good_253 = [
        "x".repeat(63),
        "x".repeat(63),
        "x".repeat(63),
        "x".repeat(61),
    ]
    .join(".");
    assert_eq!(good_253.len(), 253);
    assert_eq!(opened(good_253.as_bytes(), 1, 1), Ok(()));
    let dotted = good_253 + "..";
    assert_eq!(opened(dotted.as_bytes(), 1, 1), Err(refusal(1, 254)));
}

#[test]
fn point_13_place_255_for_the_message() {
    assert_eq!(opened(b"example.com", 3, 1), Err(refusal(3, 255)));
    assert_eq!(opened(b"example.com", 1, 2), Err(refusal(3, 255)));
    assert_eq!(opened(b"example.com", 255, 255), Err(refusal(3, 255)));
    for existence in 0..=2 {
        for support in 0..=1 {
            assert_eq!(opened(b"example.com", existence, support), Ok(()));
        }
    }
    // 1, then the message's 3
    assert_eq!(opened(b"a..b", 9, 9), Err(refusal(1, 2)));
}

#[test]
fn point_14_order_within_identifiers() {
    let good = (1, 1, "a.example");
    let with_17th = |last| {
        let mut list = vec![good; 16];
        list.push(last);
        added(&list)
    };
    assert_eq!(added(&[good; 16]), Ok(()));
    assert_eq!(with_17th((2, 1, "a.example")), Err(refusal(3, 16)));
    assert_eq!(with_17th((1, 3, "a.example")), Err(refusal(3, 16)));
    assert_eq!(with_17th(good), Err(refusal(4, 16)));
    assert_eq!(with_17th((0, 1, "a.example")), Err(refusal(4, 16)));
    assert_eq!(with_17th((1, 1, "a..b")), Err(refusal(4, 16)));
    let spf = (0, 1, "a.example");
    assert_eq!(added(&[spf, (0, 1, "a..b")]), Err(refusal(4, 1)));
    assert_eq!(added(&[spf, (0, 7, "a..b")]), Err(refusal(3, 1)));
    let mut spf_at_both_ends = vec![good; 16];
    spf_at_both_ends.insert(0, spf);
    spf_at_both_ends[16] = spf;
    assert_eq!(added(&spf_at_both_ends), Err(refusal(4, 16)));
    assert_eq!(added(&[(1, 1, "a..b"), (9, 1, "b")]), Err(refusal(2, 0)));
    // The message's 3 comes before any identifier's.
    let mut given = case("example.com").identifier(9, 9, "a..b").existence(3);
    assert_eq!(given.message(), Err(refusal(3, 255)));
    given = given.existence(1);
    assert_eq!(given.message(), Err(refusal(3, 0)));
}

#[test]
fn point_15_a_second_spf_of_any_outcome() {
    let list = [(0, 0, "a.example"), (0, 1, "b.example")];
    assert_eq!(added(&list), Err(refusal(4, 1)));
    let parted = [
        (0, 1, "a.example"),
        (1, 1, "b.example"),
        (0, 2, "a.example"),
    ];
    assert_eq!(added(&parted), Err(refusal(4, 2)));
}

#[test]
fn point_16_nothing_past_the_17th_is_looked_at() {
    let good = id(1, 1, b"a.example");
    let mut list = vec![good.clone(); 40];
    let sheet = |list: &[Vec<u8>]| [au(1, 1, b"example.com"), list.concat()].concat();
    assert_eq!(run(&sheet(&list)), "refused 4 at 16\n");
    list[20] = id(9, 9, b"");
    assert_eq!(run(&sheet(&list)), "refused 4 at 16\n");
    list[16] = id(1, 9, b"");
    assert_eq!(run(&sheet(&list)), "refused 3 at 16\n");
}

#[test]
fn point_17_domains_of_identifiers_that_do_not_pass_are_judged() {
    let list = [(1, 1, "a.example"), (1, 0, "a..b")];
    assert_eq!(added(&list), Err(refusal(2, 1)));
}

#[test]
fn point_19_a_refused_opening_leaves_the_standing_evaluation() {
    let mut book = case("example.com").spf("example.com").book();
    book.next_step().unwrap();
    let before = book.clone();
    assert_eq!(book.open(b".", 1, 1), Err(refusal(1, 0)));
    assert_eq!(book.open(b"example.org", 3, 1), Err(refusal(3, 255)));
    assert_eq!(book, before);
    let mut scratch = [0; 4096];
    let given = book.answer(b"_dmarc.example.com", Answer::NONE, &mut scratch);
    assert_eq!(given, Ok(()));
}

#[test]
fn point_20_an_accepted_opening_replaces_the_evaluation() {
    let mut book = case("example.com").book();
    book.next_step().unwrap();
    book.open(b"example.org", 1, 1).unwrap();
    assert_eq!(book, case("example.org").book());
    assert_eq!(book.now_asked(), None);
    let Ok(Step::Ask(asked)) = book.next_step() else {
        panic!("a name to ask");
    };
    assert_eq!(asked.name, b"_dmarc.example.org");
}

#[test]
fn point_21_case_never_matters_and_names_are_in_lower_case() {
    let verdict = case("News.EXAMPLE.com")
        .text("example.com", E)
        .dkim("nEws.example.COM")
        .verdict();
    assert_eq!(verdict.domain, b"example.com");
    let asked = case("News.EXAMPLE.com").asked();
    assert_eq!(asked, ["news.example.com", "example.com", "com"]);
}
