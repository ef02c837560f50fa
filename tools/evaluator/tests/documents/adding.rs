//! Ask 8 of document 02, readings 141 to 145: opening, then adding.

use crate::case::{case, refusal, words};
use crate::octets::{an_none, an_text, au, id, printed, run, E};
use evaluator::book::{Book, Step};
use evaluator::refusal::Refusal;
use evaluator::sheet::verdict;
use evaluator::txt::Answer;
use evaluator::verdict::{DmarcResult, Verdict};

/// An identifier as it is added.
type Given<'a> = (u8, u8, &'a str);

/// Good ones, and ones that are refused 3 and 2.
const ANY: [Given; 6] = [
    (1, 1, "mail.example.com"),
    (0, 1, "example.com"),
    (2, 1, "example.com"),
    (0, 3, "example.com"),
    (1, 0, "a..b"),
    (255, 255, ""),
];

fn add(book: &mut Book, (kind, outcome, domain): Given) -> Result<(), Refusal> {
    book.add(kind, outcome, domain.as_bytes())
}

/// Checks that nothing can be added, whatever comes, and that nothing changes.
fn too_late(book: &mut Book) {
    let before = book.clone();
    for given in ANY {
        assert_eq!(add(book, given), Err(refusal(17, 0)), "{given:?}");
    }
    assert_eq!(*book, before);
}

/// Answers the name now asked by one record.
fn answer(book: &mut Book, text: &str) {
    let name = book.now_asked().expect("an asked name").to_vec();
    let own = case("example.com").text("example.com", text);
    let given = own.lookup(b"_dmarc.example.com");
    assert_eq!(book.answer(&name, given, &mut [0; 4096]), Ok(()));
}

#[test]
fn point_141_nothing_opened() {
    let mut book = Book::default();
    too_late(&mut book);
    // A refused opening opens nothing.
    assert_eq!(book.open(b"a..b", 1, 1), Err(refusal(1, 2)));
    too_late(&mut book);
    assert_eq!(book.open(b"example.com", 1, 2), Err(refusal(3, 255)));
    too_late(&mut book);
    assert_eq!(book, Book::default());
}

#[test]
fn point_141_too_late_from_the_first_name_on() {
    let mut book = case("example.com").spf("example.com").book();
    assert!(matches!(book.next_step(), Ok(Step::Ask(_))));
    too_late(&mut book);
    assert!(matches!(book.next_step(), Ok(Step::Ask(_))));
    too_late(&mut book);
    // A refused opening and a refused answer open nothing again.
    assert_eq!(book.open(b"", 1, 1), Err(refusal(1, 0)));
    let refused = book.answer(b"_dmarc.com", Answer::NONE, &mut [0; 4096]);
    assert_eq!(refused, Err(refusal(5, 0)));
    too_late(&mut book);
    // The last answer is there, and the verdict was not handed out.
    answer(&mut book, E);
    too_late(&mut book);
    assert!(book.result().is_ok());
    too_late(&mut book);
    assert!(matches!(book.next_step(), Ok(Step::Verdict(_))));
    too_late(&mut book);
    let verdict = book.result().expect("the verdict");
    assert_eq!(words(&verdict.alignments), ["aligned"]);
    assert_eq!(verdict.asked, 1);
}

#[test]
fn point_141_too_late_between_two_names() {
    let mut book = case("news.example.com").book();
    book.next_step().unwrap();
    let name = b"_dmarc.news.example.com";
    assert_eq!(book.answer(name, Answer::NONE, &mut [0; 4096]), Ok(()));
    assert_eq!(book.now_asked(), None);
    too_late(&mut book);
}

#[test]
fn point_141_refused_calls_close_nothing() {
    let mut book = Book::default();
    assert_eq!(book.next_step(), Err(refusal(7, 0)));
    book.open(b"example.com", 1, 1).unwrap();
    assert_eq!(add(&mut book, (1, 1, "a.example")), Ok(()));
    assert_eq!(book.result(), Err(refusal(7, 0)));
    assert_eq!(add(&mut book, (1, 1, "b.example")), Ok(()));
    assert_eq!(book.field(&mut [0; 40]), Err(refusal(7, 0)));
    assert_eq!(add(&mut book, (1, 1, "c.example")), Ok(()));
    assert_eq!(book.finding(), Err(refusal(7, 0)));
    assert_eq!(add(&mut book, (1, 1, "d.example")), Ok(()));
    let early = book.answer(b"_dmarc.example.com", Answer::NONE, &mut [0; 4096]);
    assert_eq!(early, Err(refusal(5, 0)));
    assert_eq!(add(&mut book, (1, 1, "e.example")), Ok(()));
    assert_eq!(book.open(b".", 1, 1), Err(refusal(1, 0)));
    assert_eq!(add(&mut book, (1, 1, "f.example")), Ok(()));
    let letters = ["a", "b", "c", "d", "e", "f"];
    let whole = letters.iter().fold(case("example.com"), |case, letter| {
        case.dkim(&format!("{letter}.example"))
    });
    assert_eq!(book, whole.book());
}

#[test]
fn point_142_the_index_is_how_many_were_accepted() {
    let mut book = case("example.com").book();
    let steps: [(Given, Result<(), Refusal>); 12] = [
        ((2, 1, "a.example"), Err(refusal(3, 0))),
        ((1, 1, "."), Err(refusal(2, 0))),
        ((0, 0, "a.example"), Ok(())),
        ((0, 1, "b.example"), Err(refusal(4, 1))),
        ((0, 1, "a..b"), Err(refusal(4, 1))),
        ((0, 3, "a..b"), Err(refusal(3, 1))),
        ((1, 1, "b.example"), Ok(())),
        ((1, 0, "a..b"), Err(refusal(2, 2))),
        ((1, 3, "a..b"), Err(refusal(3, 2))),
        ((0, 2, "c.example"), Err(refusal(4, 2))),
        ((1, 2, "c.example."), Ok(())),
        ((9, 9, ""), Err(refusal(3, 3))),
    ];
    for (given, expected) in steps {
        let before = book.clone();
        assert_eq!(add(&mut book, given), expected, "{given:?}");
        assert_eq!(book == before, expected.is_err(), "{given:?}");
    }
    let accepted = case("example.com")
        .identifier(0, 0, "a.example")
        .dkim("b.example")
        .identifier(1, 2, "c.example");
    assert_eq!(book, accepted.book());
}

#[test]
fn point_142_the_17th() {
    let mut book = case("example.com").book();
    for number in 0..16 {
        let domain = format!("d{number}.example");
        assert_eq!(add(&mut book, (1, 1, &domain)), Ok(()));
    }
    let full = book.clone();
    for (given, number) in [
        ((1, 1, "a.example"), 4),
        ((0, 1, "a.example"), 4),
        ((1, 1, "a..b"), 4),
        ((2, 1, "a.example"), 3),
        ((1, 3, "a..b"), 3),
    ] {
        assert_eq!(add(&mut book, given), Err(refusal(number, 16)), "{given:?}");
    }
    assert_eq!(book, full);
    // Full or not, a name handed out comes first.
    book.next_step().unwrap();
    too_late(&mut book);
}

/// The verdict of a book in which the author's own name is asked first and has
/// the record E, and all other names none.
fn run_out(book: &mut Book) -> Verdict {
    assert!(matches!(book.next_step(), Ok(Step::Ask(_))));
    answer(book, E);
    while let Ok(Step::Ask(asked)) = book.next_step() {
        let given = book.answer(&asked.name, Answer::NONE, &mut [0; 4096]);
        assert_eq!(given, Ok(()));
    }
    book.result().expect("a verdict")
}

#[test]
fn point_143_the_evaluation_goes_on_after_a_refused_add() {
    let mut book = case("example.com").book();
    assert_eq!(add(&mut book, (1, 7, "example.com")), Err(refusal(3, 0)));
    assert_eq!(add(&mut book, (1, 1, "mail.example.com")), Ok(()));
    assert_eq!(add(&mut book, (1, 1, "example..com")), Err(refusal(2, 1)));
    let verdict = run_out(&mut book);
    assert_eq!(verdict.result, DmarcResult::Pass);
    assert_eq!(words(&verdict.alignments), ["aligned"]);
    assert_eq!(verdict.asked, 3);
}

#[test]
fn point_143_on_a_sheet_the_first_refusal_is_printed() {
    let own = an_text("_dmarc.example.com", E);
    let sheet = |author: &[u8], identifiers: &[Vec<u8>]| {
        run(&[au(1, 1, author), identifiers.concat(), own.clone()].concat())
    };
    let (good, spf) = (id(1, 1, b"example.com"), id(0, 1, b"example.com"));
    let refused = id(1, 7, b"example.com");
    let whole = printed(&["example.com"], "pass reject none");
    assert_eq!(sheet(b"example.com", &[good.clone(), spf.clone()]), whole);
    let table = [
        ("a..b", vec![refused.clone()], "refused 1 at 2\n"),
        (
            "example.com",
            vec![refused.clone(), spf.clone(), spf.clone()],
            "refused 3 at 0\n",
        ),
        (
            "example.com",
            vec![spf.clone(), spf.clone(), refused.clone()],
            "refused 4 at 1\n",
        ),
        (
            "example.com",
            vec![good, id(1, 1, b"a..b"), refused, spf],
            "refused 2 at 1\n",
        ),
    ];
    for (author, identifiers, expected) in table {
        assert_eq!(sheet(author.as_bytes(), &identifiers), expected);
    }
}

#[test]
fn point_144_opening_and_adding_in_order_gives_the_sheets_message() {
    let given = [
        (0, 1, "example.com"),
        (1, 1, "mail.example.com"),
        (1, 0, "example.com"),
    ];
    let mut book = case("example.com").book();
    let mut octets = au(1, 1, b"example.com");
    for (kind, outcome, domain) in given {
        assert_eq!(add(&mut book, (kind, outcome, domain)), Ok(()));
        octets.extend(id(kind, outcome, domain.as_bytes()));
    }
    octets.extend(an_text("_dmarc.example.com", E));
    octets.extend(an_none("_dmarc.com"));
    octets.extend(an_none("_dmarc.mail.example.com"));
    let (names, whole) = verdict(&octets).expect("a sheet with a verdict");
    assert_eq!(run_out(&mut book), whole);
    assert_eq!(book.names(), names);
    assert_eq!(
        words(&whole.alignments),
        ["aligned", "aligned", "not aligned"]
    );
    // In another order it is another message.
    let mut turned = case("example.com").book();
    for given in given.into_iter().rev() {
        assert_eq!(add(&mut turned, given), Ok(()));
    }
    let turned = run_out(&mut turned);
    assert_eq!(
        words(&turned.alignments),
        ["not aligned", "aligned", "aligned"]
    );
}

#[test]
fn point_145_the_message_grows_until_the_first_next_step() {
    let mut book = case("example.com").book();
    assert_eq!(add(&mut book, (1, 1, "a.other.test")), Ok(()));
    assert_eq!(book.result(), Err(refusal(7, 0)));
    assert_eq!(add(&mut book, (0, 1, "example.com")), Ok(()));
    let verdict = run_out(&mut book);
    assert_eq!(words(&verdict.alignments), ["not aligned", "aligned"]);
    let names: Vec<Vec<u8>> = book.names().into_iter().map(|asked| asked.name).collect();
    let expected = ["example.com", "com", "a.other.test", "other.test", "test"];
    assert_eq!(
        names,
        expected.map(|name| format!("_dmarc.{name}").into_bytes())
    );
}

#[test]
fn an_opening_over_a_running_evaluation_begins_afresh() {
    let mut book = case("example.com")
        .spf("example.com")
        .dkim("a.example")
        .book();
    // Before any name.
    book.open(b"example.com", 1, 1).unwrap();
    assert_eq!(book, case("example.com").book());
    assert_eq!(add(&mut book, (0, 1, "b.example")), Ok(()));
    assert_eq!(add(&mut book, (0, 1, "b.example")), Err(refusal(4, 1)));
    // After a name, after an answer, and after the verdict.
    for calls in 1..=3 {
        book.next_step().unwrap();
        if calls > 1 {
            answer(&mut book, E);
        }
        if calls > 2 {
            assert!(matches!(book.next_step(), Ok(Step::Verdict(_))));
        }
        too_late(&mut book);
        book.open(b"example.com", 1, 1).unwrap();
        assert_eq!(book, case("example.com").book());
        assert_eq!(add(&mut book, (0, 1, "c.example")), Ok(()));
    }
    assert_eq!(book, case("example.com").spf("c.example").book());
}
