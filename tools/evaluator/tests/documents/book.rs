//! Readings 78 to 93: the calls and the book.

use crate::case::{case, domain_of, refusal, Case};
use crate::octets::E;
use evaluator::book::{Book, Step};
use evaluator::evaluate::{evaluate, Progress};
use evaluator::txt::Answer;
use evaluator::verdict::DmarcResult;

/// The name, walk and place of an ask.
fn ask(book: &mut Book) -> (String, usize, usize) {
    match book.next_step() {
        Ok(Step::Ask(asked)) => {
            let name = String::from_utf8(asked.name).expect("a name in ASCII");
            (name, asked.walk, asked.place)
        }
        other => panic!("no ask: {other:?}"),
    }
}

/// Answers the asked name as the case says.
fn answer(book: &mut Book, case: &Case) {
    let name = book.now_asked().expect("an asked name").to_vec();
    let given = book.answer(&name, case.lookup(&name), &mut [0; 4096]);
    assert_eq!(given, Ok(()));
}

/// Asks and answers in turn up to the last answer, and gives the asks.
fn run_out(book: &mut Book, case: &Case) -> Vec<(String, usize, usize)> {
    let mut asks = Vec::new();
    while book.result().is_err() {
        asks.push(ask(book));
        answer(book, case);
    }
    asks
}

fn name(text: &str, walk: usize, place: usize) -> (String, usize, usize) {
    (format!("_dmarc.{text}"), walk, place)
}

#[test]
fn points_78_and_79_walk_and_place_of_a_name() {
    let case = case("news.example.com")
        .text("example.com", "v=DMARC1; p=none")
        .identifier(1, 0, "not.walked")
        .dkim("mail.example.com")
        .dkim("MAIL.example.com")
        .dkim("a.other.com");
    let asks = run_out(&mut case.book(), &case);
    let expected = [
        name("news.example.com", 0, 0),
        name("example.com", 0, 5),
        // "Author news.example.com, name `_dmarc.com`: walk 0, place 13."
        name("com", 0, 13),
        name("mail.example.com", 2, 0),
        name("a.other.com", 4, 0),
        name("other.com", 4, 2),
    ];
    assert_eq!(asks, expected);
}

#[test]
fn point_80_the_applied_domain_is_a_suffix_of_the_author() {
    let case = case("news.example.com").text("example.com", E);
    let verdict = case.verdict();
    assert_eq!(domain_of(&verdict), "example.com");
}

#[test]
fn point_82_next_twice() {
    let case = case("example.com");
    let mut book = case.book();
    let first = ask(&mut book);
    let before = book.clone();
    assert_eq!(ask(&mut book), first);
    assert_eq!(book, before);
    answer(&mut book, &case);
    ask(&mut book);
    ask(&mut book);
    answer(&mut book, &case);
    assert_eq!(book.result().unwrap().asked, 2);
}

#[test]
fn point_83_result_right_after_the_last_answer() {
    let case = case("example.com").text("example.com", E);
    let mut book = case.book();
    ask(&mut book);
    assert_eq!(book.result(), Err(refusal(7, 0)));
    answer(&mut book, &case);
    assert_eq!(book.result().unwrap().result, DmarcResult::Fail);
}

#[test]
fn point_84_result_and_field_before_any_next() {
    let book = case("example.com").dkim("example.com").book();
    assert_eq!(book.result(), Err(refusal(7, 0)));
    assert_eq!(book.field(&mut [0; 100]), Err(refusal(7, 0)));
}

#[test]
fn point_6_where_nothing_was_opened() {
    let mut book = Book::default();
    assert_eq!(book.next_step(), Err(refusal(7, 0)));
    assert_eq!(book.result(), Err(refusal(7, 0)));
    assert_eq!(book.field(&mut []), Err(refusal(7, 0)));
    assert_eq!(book, Book::default());
}

#[test]
fn points_85_and_86_after_the_verdict() {
    let case = case("example.com")
        .text("example.com", E)
        .spf("example.com");
    let mut book = case.book();
    run_out(&mut book, &case);
    let before = book.clone();
    let verdict = book.result().unwrap();
    assert_eq!(book.next_step(), Ok(Step::Verdict(verdict.clone())));
    assert_eq!(book.result(), Ok(verdict.clone()));
    assert_eq!(book.next_step(), Ok(Step::Verdict(verdict)));
    let none = Answer::NONE;
    let given = book.answer(b"_dmarc.example.com", none, &mut [0; 4096]);
    assert_eq!(given, Err(refusal(5, 0)));
    assert_eq!(book.field(&mut [0; 26]), Ok(26));
    assert_eq!(book.field(&mut [0; 26]), Ok(26));
    assert_eq!(book, before);
}

#[test]
fn point_89_refused_calls_change_nothing() {
    let case = case("example.com").dkim("example.com");
    let mut book = case.book();
    ask(&mut book);
    let before = book.clone();
    let mut lent = [170; 4096];
    let bad = Answer::records(b"TX\0\0");
    let name = b"_dmarc.example.com";
    assert_eq!(book.answer(name, bad, &mut lent), Err(refusal(6, 0)));
    assert_eq!(book.answer(b"x", bad, &mut lent), Err(refusal(5, 0)));
    assert_eq!(book.result(), Err(refusal(7, 0)));
    assert_eq!(book.field(&mut lent), Err(refusal(7, 0)));
    assert_eq!(lent, [170; 4096]);
    assert_eq!(book, before);
    answer(&mut book, &case);
}

#[test]
fn point_90_field_order() {
    let field = |case: &Case, octets: usize| {
        let mut book = case.book();
        run_out(&mut book, case);
        let mut lent = vec![170; octets];
        (book.field(&mut lent), lent)
    };
    // Before the verdict, with no output: 7.
    let own = case("example.com").text("example.com", E);
    assert_eq!(own.book().field(&mut []), Err(refusal(7, 0)));
    // Neither pass nor fail, or no identifier: 9 before 10.
    let temperror = case("example.com").error("example.com").dkim("example.com");
    assert_eq!(field(&temperror, 0).0, Err(refusal(9, 0)));
    let none = case("example.com").dkim("example.com");
    assert_eq!(field(&none, 0).0, Err(refusal(9, 0)));
    let permerror = none.clone().text("example.com", "v=DMARC1");
    assert_eq!(field(&permerror, 0).0, Err(refusal(9, 0)));
    assert_eq!(field(&own, 0).0, Err(refusal(9, 0)));
    // Then 10 at the field's length.
    let spf = own.clone().spf("x.org");
    let dkim = own.clone().dkim("x.org");
    let both = spf.clone().dkim("x.org");
    let pass = own.dkim("example.com");
    for (case, length) in [(spf, 25), (dkim, 26), (both, 31), (pass, 26)] {
        let (refused, lent) = field(&case, length - 1);
        assert_eq!(refused, Err(refusal(10, length)));
        assert_eq!(lent, vec![170; length - 1]);
        let (given, lent) = field(&case, length + 3);
        assert_eq!(given, Ok(length));
        assert_eq!(&lent[length - 2..], b"\r\n\xaa\xaa\xaa");
    }
}

#[test]
fn point_91_the_most_names() {
    // 16 passing domains of nine labels that share no name with the author's.
    let mut case =
        case("a.b.c.d.e.f.g.h.author").text("a.b.c.d.e.f.g.h.author", "v=DMARC1; p=none");
    for number in 0..16 {
        case = case.dkim(&format!("a.b.c.d.e.f.g.h.top{number}"));
    }
    assert_eq!(case.verdict().asked, 136);
    assert_eq!(case.asked().len(), 136);
}

#[test]
fn point_92_a_list_of_calls_gives_the_verdict_of_separate_walks() {
    let case = case("news.example.com")
        .text("news.example.com", "v=DMARC1; p=reject")
        .text("example.com", "v=DMARC1; p=none")
        .spf("other.org")
        .dkim("mail.example.com");
    let mut book = case.book();
    let asks = run_out(&mut book, &case);
    assert_eq!(book.result().unwrap(), case.verdict());
    let names: Vec<String> = case
        .asked()
        .iter()
        .map(|name| format!("_dmarc.{name}"))
        .collect();
    let asked: Vec<String> = asks.into_iter().map(|(name, _, _)| name).collect();
    assert_eq!(asked, names);
    assert_eq!(names.len(), 6);
}

#[test]
fn point_93_the_names_so_far_are_the_first_of_the_list() {
    let case = case("news.example.com")
        .text("news.example.com", "v=DMARC1; p=reject")
        .text("example.com", "v=DMARC1; p=none")
        .dkim("mail.example.com")
        .dkim("a.b.org");
    let message = case.message().unwrap();
    let all = case.asked();
    assert_eq!(all.len(), 7);
    for answered in 0..all.len() {
        let known = |name: &[u8]| {
            let position = all
                .iter()
                .position(|own| name.ends_with(own.as_bytes()) && name.len() == own.len() + 7);
            position
                .filter(|at| *at < answered)
                .map(|_| case.lookup(name))
        };
        let evaluation = evaluate(&message, known);
        let names: Vec<String> = evaluation
            .names
            .iter()
            .map(|asked| String::from_utf8_lossy(&asked.name[7..]).into_owned())
            .collect();
        assert_eq!(names, all[..=answered]);
        assert!(matches!(evaluation.progress, Progress::Ask(_)));
    }
}

#[test]
fn an_answer_kept_in_the_other_case_counts() {
    let case = case("EXAMPLE.com").text("example.com", E);
    let mut book = case.book();
    ask(&mut book);
    let given = book.answer(
        b"_DMARC.EXAMPLE.COM",
        case.lookup(b"_dmarc.example.com"),
        &mut [0; 4096],
    );
    assert_eq!(given, Ok(()));
    assert_eq!(book.result().unwrap().result, DmarcResult::Fail);
}
