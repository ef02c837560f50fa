//! Ask 5 of document 02, readings 134 to 136: a final dot.

use crate::case::{case, domain_of, refusal, words};
use crate::octets::{an, an_none, an_text, au, id, printed, run, E};
use evaluator::book::{Book, Step};
use evaluator::domain::{fault, without_dot, Domain};
use evaluator::lists::Lists;
use evaluator::message::Message;
use evaluator::refusal::Refusal;
use evaluator::report::{file_name, FileName};
use evaluator::rows::{DayList, Entry, Finding, Row};
use evaluator::txt::Answer;

/// Three labels of 63 octets and one of so many.
fn long(last: usize) -> String {
    let label = "x".repeat(63);
    [label.as_str(), &label, &label, &"y".repeat(last)].join(".")
}

#[test]
fn one_dot_is_dropped_and_no_more() {
    let table = [
        ("", ""),
        (".", ""),
        ("..", "."),
        ("a.", "a"),
        ("a..", "a."),
        ("a.b", "a.b"),
        (".a", ".a"),
    ];
    for (text, dropped) in table {
        assert_eq!(without_dot(text.as_bytes()), dropped.as_bytes(), "{text}");
    }
}

/// 11 and 135: texts with what is wrong with them without their final dot.
fn places() -> Vec<(String, Option<usize>)> {
    let mut table = [
        (".", Some(0)),
        ("..", Some(0)),
        ("...", Some(0)),
        ("a.", None),
        ("a..", Some(2)),
        ("a...", Some(2)),
        (".a.", Some(0)),
        ("a..b.", Some(2)),
        ("ok.a b.", Some(3)),
        ("a.b c.d.", Some(2)),
        ("example.com.", None),
        ("example.com..", Some(12)),
        ("com. ", Some(4)),
        ("com .", Some(0)),
    ]
    .map(|(text, place)| (text.to_string(), place))
    .to_vec();
    assert_eq!((long(61).len(), long(62).len()), (253, 254));
    table.push((long(61) + ".", None));
    table.push((long(61) + "..", Some(254)));
    table.push((long(62) + ".", Some(253)));
    table.push((long(62) + "..", Some(255)));
    table.push((format!("{}.", "x".repeat(63)), None));
    table.push((format!("{}.", "x".repeat(64)), Some(0)));
    table
}

#[test]
fn point_135_judged_without_the_dot() {
    for (text, place) in places() {
        assert_eq!(fault(text.as_bytes()), place, "{text}");
        let read = Domain::read(text.as_bytes()).map(|domain| domain.octets().to_vec());
        let expected = text.strip_suffix('.').unwrap_or(&text);
        let expected = match place {
            Some(place) => Err(place),
            None => Ok(expected.as_bytes().to_vec()),
        };
        assert_eq!(read, expected, "{text}");
    }
}

/// How a message of these domains ends.
fn given(author: &[u8], domains: &[&[u8]]) -> Result<(), Refusal> {
    let mut message = Message::open(author, 1, 1)?;
    let mut domains = domains.iter();
    domains.try_for_each(|domain| message.add(1, 1, domain))
}

#[test]
fn point_135_refusals_1_and_2() {
    for (text, place) in places() {
        let text = text.as_bytes();
        let author = place.map_or(Ok(()), |place| Err(refusal(1, place)));
        assert_eq!(given(text, &[]), author, "{}", text.escape_ascii());
        // "the index"
        let second = place.map_or(Ok(()), |_| Err(refusal(2, 1)));
        assert_eq!(given(b"a", &[b"b", text]), second);
    }
    assert_eq!(given(b".", &[b"."]), Err(refusal(1, 0)));
    assert_eq!(given(b"a.", &[b".", b".."]), Err(refusal(2, 0)));
}

#[test]
fn point_136_one_domain_in_two_spellings() {
    let plain = case("example.com")
        .text("example.com", E)
        .spf("example.com")
        .dkim("mail.example.com");
    for (author, spf, dkim) in [
        ("example.com.", "example.com", "mail.example.com"),
        ("example.com", "EXAMPLE.COM.", "mail.example.com."),
        ("Example.Com.", "example.com.", "Mail.example.com."),
    ] {
        let dotted = case(author).text("example.com", E).spf(spf).dkim(dkim);
        assert_eq!(dotted.verdict(), plain.verdict());
        assert_eq!(dotted.asked(), plain.asked());
    }
    let verdict = case("news.example.com.").text("example.com", E).verdict();
    assert_eq!(domain_of(&verdict), "example.com");
}

#[test]
fn point_136_one_name_in_the_list() {
    // Two identifiers of one domain are one walk, whatever their spelling.
    let dotted = case("example.com.")
        .text("example.com", "v=DMARC1; p=reject")
        .dkim("mail.example.org.")
        .dkim("mail.example.org")
        .dkim("Mail.Example.Org.");
    let verdict = dotted.gives(
        "fail reject reject",
        &[
            "example.com",
            "com",
            "mail.example.org",
            "example.org",
            "org",
        ],
    );
    assert_eq!(words(&verdict.alignments), ["not aligned"; 3]);
}

#[test]
fn point_136_places_count_without_the_dot() {
    for author in ["a.example.com", "a.example.com."] {
        let evaluation = case(author).dkim("b.example.org.").evaluation();
        let places: Vec<usize> = evaluation.names.iter().map(|name| name.place).collect();
        assert_eq!(places, [0, 2, 10]);
        let names = evaluation.names.iter().map(|name| name.name.as_slice());
        assert!(names.clone().all(|name| !name.ends_with(b".")));
    }
}

#[test]
fn point_136_labels_are_counted_without_the_dot() {
    // Nine labels: the second target has seven.
    let nine = case("a.b.c.d.e.f.g.h.test.");
    assert_eq!(nine.asked().len(), 8);
    assert_eq!(nine.asked()[1], "c.d.e.f.g.h.test");
    let longest = long(54);
    assert_eq!(longest.len(), 246);
    assert_eq!(case(&(longest + ".")).asked().len(), 4);
    let too_long = long(55);
    assert_eq!(case(&(too_long + ".")).asked().len(), 3);
}

/// A book that now asks `_dmarc.example.com`.
fn asking() -> Book {
    let mut book = Book::default();
    assert_eq!(book.open(b"example.com.", 1, 1), Ok(()));
    let Ok(Step::Ask(asked)) = book.next_step() else {
        panic!("a name is asked");
    };
    assert_eq!(asked.name, b"_dmarc.example.com");
    book
}

#[test]
fn point_136_the_name_of_an_answer() {
    let answered = |name: &[u8]| asking().answer(name, Answer::NONE, &mut [0; 4096]);
    let own: [&[u8]; 3] = [
        b"_dmarc.example.com",
        b"_dmarc.example.com.",
        b"_DMARC.EXAMPLE.COM.",
    ];
    for name in own {
        assert_eq!(answered(name), Ok(()), "{}", name.escape_ascii());
    }
    let others: [&[u8]; 7] = [
        b"_dmarc.example.com..",
        b"_dmarc.example.com. ",
        b"._dmarc.example.com",
        b"_dmarc.example.co.",
        b"_dmarc.com.",
        b".",
        b"",
    ];
    for name in others {
        let refused = Err(refusal(5, 0));
        assert_eq!(answered(name), refused, "{}", name.escape_ascii());
    }
    // Answered in one spelling, it is not asked in the other.
    let mut book = asking();
    let name = b"_dmarc.example.com.";
    assert_eq!(book.answer(name, Answer::NONE, &mut [0; 4096]), Ok(()));
    let Ok(Step::Ask(next)) = book.next_step() else {
        panic!("a name is asked");
    };
    assert_eq!(next.name, b"_dmarc.com");
    let again = book.answer(name, Answer::NONE, &mut [0; 4096]);
    assert_eq!(again, Err(refusal(5, 0)));
}

fn refused(sheet: &[&[u8]], number: u8, place: usize) {
    let expected = format!("refused {number} at {place}\n");
    assert_eq!(run(&sheet.concat()), expected);
}

#[test]
fn point_135_on_a_sheet() {
    refused(&[&au(1, 1, b".")], 1, 0);
    refused(&[&au(1, 1, b"..")], 1, 0);
    refused(&[&au(1, 1, b"a..")], 1, 2);
    let author = au(1, 1, b"example.com.");
    assert_eq!(author.len(), 18);
    refused(&[&author, &id(1, 1, b"a."), &id(1, 1, b".")], 2, 1);
    refused(&[&author, &id(1, 1, b"a..")], 2, 0);
    // A name that breaks the rule is 8.
    for name in [".", "..", "a..", "_dmarc.example.com..", ".com."] {
        refused(&[&author, &an_none(name)], 8, 18);
    }
    let longest = an_none(&(long(61) + "."));
    let expected = printed(&["example.com"], "temperror unknown defer");
    assert_eq!(run(&[author.clone(), longest].concat()), expected);
    refused(&[&author, &an_none(&(long(62) + "."))], 8, 18);
    refused(&[&author, &an(1, long(61).as_bytes(), b".")], 8, 18);
}

#[test]
fn point_136_answers_on_a_sheet() {
    let author = au(1, 1, b"Example.com.");
    let dotted = an_text("_dmarc.example.com.", E);
    let plain = an_text("_dmarc.example.com", E);
    let expected = printed(&["example.com"], "fail reject reject");
    for answer in [&dotted, &plain] {
        assert_eq!(run(&[author.clone(), answer.clone()].concat()), expected);
    }
    // "on a sheet both answered is refusal 8"
    let second = author.len() + dotted.len();
    refused(&[&author, &dotted, &plain], 8, second);
    refused(&[&author, &dotted, &dotted], 8, second);
    refused(&[&author, &plain, &dotted], 8, second - 1);
    let other = an_none("_DMARC.Example.COM.");
    refused(&[&author, &plain, &other], 8, second - 1);
    // One that is never asked, too.
    refused(
        &[&author, &an_none("a.b"), &an_none("c."), &an_none("A.B.")],
        8,
        18 + 9 + 8,
    );
}

#[test]
fn point_136_on_a_whole_sheet() {
    let author = au(1, 1, b"news.Example.com.");
    let sheet = [
        author,
        id(1, 1, b"mail.example.com."),
        id(0, 1, b"news.example.com"),
        an_none("_dmarc.news.example.com."),
        an_text("_DMARC.example.com.", "v=DMARC1; p=reject; aspf=s"),
        an_none("_dmarc.com"),
        an_none("_dmarc.mail.example.com."),
    ]
    .concat();
    let names = ["news.example.com", "example.com", "com", "mail.example.com"];
    let expected = printed(&names, "pass reject none");
    assert_eq!(run(&sheet), expected);
}

const SAMPLE: FileName = FileName {
    receiver: b"gate.example",
    policy_domain: b"example.com",
    begin: 7,
    end: 8,
    id: None,
};

#[test]
fn point_134_a_file_name() {
    let named = |receiver: &[u8], policy_domain: &[u8]| {
        let mut lent = [170; 700];
        let parts = FileName {
            receiver,
            policy_domain,
            ..SAMPLE
        };
        let length = file_name(&parts, &mut lent)?;
        assert!(lent[length..].iter().all(|octet| *octet == 170));
        Ok(String::from_utf8_lossy(&lent[..length]).into_owned())
    };
    let expected = Ok("gate.example!example.com!7!8.xml".to_string());
    assert_eq!(named(b"GATE.example.", b"example.com"), expected);
    assert_eq!(named(b"gate.example", b"Example.com."), expected);
    assert_eq!(named(b"gate.example.", b"example.com."), expected);
    for bad in [".", "..", "a..", "a.b..", ".a."] {
        let bad = bad.as_bytes();
        assert_eq!(named(bad, b"example.com"), Err(refusal(11, 0)));
        assert_eq!(named(b"gate.example", bad), Err(refusal(11, 0)));
    }
    let longest = long(61) + ".";
    let expected = format!("{}!example.com!7!8.xml", long(61));
    assert_eq!(named(longest.as_bytes(), b"example.com"), Ok(expected));
    let too_long = long(62) + ".";
    let refused = Err(refusal(11, 0));
    assert_eq!(named(b"a", too_long.as_bytes()), refused);
    // 10: the octets needed are those of the text that is written.
    let dotted = FileName {
        receiver: b"gate.example.",
        policy_domain: b"example.com.",
        ..SAMPLE
    };
    assert_eq!(file_name(&dotted, &mut [0; 31]), Err(refusal(10, 32)));
    assert_eq!(file_name(&dotted, &mut [0; 32]), Ok(32));
}

/// A fail for the list of this domain.
fn entry(domain: &[u8]) -> Entry {
    Entry {
        source: [1; 16],
        finding: Finding {
            result: 2,
            domain: domain.to_vec(),
            ..Finding::default()
        },
        ..Entry::default()
    }
}

/// An author domain, and a set without identifiers.
const LISTS: Lists = Lists {
    authors: b"AU\0\x0bexample.com",
    sets: b"ST\0\0",
};

#[test]
fn point_134_a_day_s_rows() {
    for cleared in [b"example.com".as_slice(), b"EXAMPLE.com."] {
        let mut list = DayList::default();
        let mut rows = [Row::default(); 2];
        assert_eq!(list.clear(cleared, &mut rows), Ok(()));
        assert_eq!(list.domain(), Some(b"example.com".as_slice()));
        for own in [b"example.com".as_slice(), b"example.com.", b"Example.COM."] {
            assert_eq!(list.enter(&entry(own), LISTS, &mut rows), Ok(()));
        }
        assert_eq!(rows.map(|row| row.count), [3, 0]);
        let others: [&[u8]; 5] = [b"example.com..", b".", b"", b"example.co.", b".example.com"];
        for other in others {
            let refused = list.enter(&entry(other), LISTS, &mut rows);
            assert_eq!(refused, Err(refusal(27, 0)), "{}", other.escape_ascii());
        }
        for bad in [b".".as_slice(), b"..", b"example.org..", b".org."] {
            let before = list.clone();
            assert_eq!(list.clear(bad, &mut rows), Err(refusal(11, 0)));
            assert_eq!(list, before);
        }
        assert_eq!(rows.map(|row| row.count), [3, 0]);
    }
    let mut longest = DayList::default();
    let dotted = long(61) + ".";
    assert_eq!(longest.clear(dotted.as_bytes(), &mut []), Ok(()));
    assert_eq!(longest.domain(), Some(long(61).as_bytes()));
}
