//! The lists of calls: lines written by hand from document 01 and the readings,
//! found by their calls.

use std::collections::BTreeMap;

use crate::octets::three;
use evaluator::txt::Status;
use sheets::programs::calls::{self, AddCall, AnswerCall, Call, OpenCall};

/// A call, and its line.
pub type Made = (Call, String);

/// The calls with their lines.
pub fn made(calls: Vec<Call>) -> Vec<Made> {
    let lines = calls::lines(&calls);
    calls.into_iter().zip(lines).collect()
}

fn fixed() -> Vec<Made> {
    made(calls::fixed().expect("messages that can be written"))
}

/// A message's opening and its identifiers.
type Message = (Call, Vec<Call>);

/// Existence, support, author; and the identifiers.
fn message(existence: u8, support: u8, author: &[u8], identifiers: &[Call]) -> Message {
    (open(existence, support, author), identifiers.to_vec())
}

fn open(existence: u8, support: u8, author: &[u8]) -> Call {
    Call::Open(OpenCall {
        author: author.to_vec(),
        existence,
        support,
    })
}

fn add(kind: u8, outcome: u8, domain: &[u8]) -> Call {
    Call::Add(AddCall::new(kind, outcome, domain))
}

/// The calls after each accepted opening of this message, up to the next accepted
/// opening.
fn messages<'a>(calls: &'a [Made], (open, identifiers): &Message) -> Vec<&'a [Made]> {
    let parts = calls.split_inclusive(|(_, line)| line == "open accepted");
    let parts: Vec<&[Made]> = parts.collect();
    let begins = |part: &[Made]| part.last().is_some_and(|made| made.0 == *open);
    let added = |part: &[Made]| {
        let accepted = part.iter().filter(|(_, line)| line == "add accepted");
        accepted.map(|made| &made.0).eq(identifiers)
    };
    let pairs = parts.windows(2);
    let pairs = pairs.filter(|pair| begins(pair[0]) && added(pair[1]));
    pairs.map(|pair| pair[1]).collect()
}

/// The names that a message asks, each once, its verdicts by both calls, and
/// what would be entered of it.
fn said(calls: &[Made]) -> (Vec<&str>, Vec<&str>, Vec<&str>) {
    let (mut names, mut verdicts, mut findings) = (Vec::new(), Vec::new(), Vec::new());
    for (_, line) in calls {
        let (_, words) = line.split_once(' ').expect("two words");
        if let Some(name) = words.strip_prefix("ask _dmarc.") {
            // A name may be given again before its answer.
            if names.last() != Some(&name) {
                names.push(name);
            }
        }
        verdicts.extend(words.strip_prefix("verdict "));
        findings.extend(words.strip_prefix("result="));
    }
    (names, verdicts, findings)
}

/// Checks that there is a message that asks these names and gives this verdict,
/// twice by each of both calls, and twice this finding.
fn check(calls: &[Made], given: &Message, names: &[&str], verdict: &str, finding: &str) {
    let said: Vec<_> = messages(calls, given).into_iter().map(said).collect();
    let expected = (names.to_vec(), vec![verdict; 4], vec![finding; 2]);
    assert!(said.contains(&expected), "{expected:?} is none of {said:?}");
}

/// Message, names asked, result with policy and disposition, domain, alignments,
/// and the numbers of result, disposition, DKIM and SPF that would be entered.
type Row<'a> = (Message, &'a [&'a str], &'a str, &'a str, &'a str, [u8; 4]);

/// A verdict's words: result, policy and disposition are the first three.
fn verdict(count: usize, words: &str, domain: &str, alignments: &str) -> String {
    let [result, policy, disposition] = three(words);
    format!(
        "{result} policy={policy} disposition={disposition} domain={domain} \
         alignments={alignments} count={count}"
    )
}

/// The words of what would be entered, after `result=`.
fn finding([result, disposition, dkim, spf]: [u8; 4], domain: &str) -> String {
    format!("{result} disposition={disposition} dkim={dkim} spf={spf} domain={domain}")
}

#[test]
fn marked_sheets() {
    let calls = fixed();
    let dkim = |domain: &[u8]| vec![add(1, 1, domain)];
    let spf = |domain: &[u8]| vec![add(0, 1, domain)];
    let example = |support| message(1, support, b"example.com", &spf(b"mail.example.com"));
    let news = |existence| message(existence, 1, b"news.example.com", &[]);
    let walk = ["news.example.com", "example.com", "com"];
    let own: &[&str] = &["example.com"];
    let alone = || message(1, 1, b"example.com", &[]);
    let table: [Row; 15] = [
        (
            message(1, 1, b"example.com", &dkim(b"mail.example.com")),
            &["example.com", "com", "mail.example.com"],
            "pass reject none",
            "example.com",
            "a",
            [1, 0, 1, 0],
        ),
        (
            example(1),
            own,
            "fail reject reject",
            "example.com",
            "n",
            [2, 2, 0, 0],
        ),
        (
            example(0),
            own,
            "fail reject quarantine",
            "example.com",
            "n",
            [2, 1, 0, 0],
        ),
        (
            news(1),
            &walk,
            "fail quarantine quarantine",
            "example.com",
            "",
            [2, 1, 0, 0],
        ),
        (
            news(0),
            &walk,
            "fail reject reject",
            "example.com",
            "",
            [2, 2, 0, 0],
        ),
        (
            news(2),
            &walk,
            "temperror unknown defer",
            "example.com",
            "",
            [3, 3, 0, 0],
        ),
        // 5: an error at example.com.
        (
            news(1),
            &["news.example.com", "example.com"],
            "temperror unknown defer",
            "",
            "",
            [3, 3, 0, 0],
        ),
        (
            message(1, 1, b"a.shop.example", &dkim(b"shop.example")),
            &["a.shop.example", "shop.example", "example"],
            "pass reject none",
            "example",
            "a",
            [1, 0, 1, 0],
        ),
        (
            message(1, 1, b"example", &dkim(b"shop.example")),
            &["example", "shop.example"],
            "fail reject reject",
            "example",
            "n",
            [2, 2, 0, 0],
        ),
        (
            message(1, 1, b"EXAMPLE.com", &spf(b"example.COM")),
            &["example.com"],
            "pass reject none",
            "example.com",
            "a",
            [1, 0, 0, 1],
        ),
        (
            message(1, 1, b"a.b.c.d.e.f.g.h.test", &[]),
            &[
                "a.b.c.d.e.f.g.h.test",
                "c.d.e.f.g.h.test",
                "d.e.f.g.h.test",
                "e.f.g.h.test",
                "f.g.h.test",
                "g.h.test",
                "h.test",
                "test",
            ],
            "none none none",
            "",
            "",
            [0, 0, 0, 0],
        ),
        // 10 to 12
        (
            alone(),
            own,
            "fail quarantine quarantine",
            "example.com",
            "",
            [2, 1, 0, 0],
        ),
        (
            alone(),
            &["example.com", "com"],
            "none none none",
            "",
            "",
            [0, 0, 0, 0],
        ),
        (
            alone(),
            own,
            "permerror none none",
            "example.com",
            "",
            [4, 0, 0, 0],
        ),
        (
            alone(),
            own,
            "fail none none",
            "example.com",
            "",
            [2, 0, 0, 0],
        ),
    ];
    for (given, names, words, domain, alignments, entered) in table {
        let verdict = verdict(names.len(), words, domain, alignments);
        check(&calls, &given, names, &verdict, &finding(entered, domain));
    }
}

/// Reading 126.
#[test]
fn one_tag_twice() {
    let calls = fixed();
    let of = |kind| {
        let identifier = add(kind, 1, b"mail.example.com");
        message(1, 1, b"twice.example.com", &[identifier])
    };
    let names = [
        "twice.example.com",
        "example.com",
        "com",
        "mail.example.com",
    ];
    let own = verdict(4, "pass quarantine none", "twice.example.com", "a");
    let entered = finding([1, 0, 1, 0], "twice.example.com");
    check(&calls, &of(1), &names, &own, &entered);
    let above = verdict(4, "pass reject none", "com", "a");
    let entered = finding([1, 0, 0, 1], "com");
    check(&calls, &of(0), &names, &above, &entered);
}

#[test]
fn as_many_names_as_there_can_be() {
    let calls = fixed();
    let identifiers: Vec<Call> = (0..16)
        .map(|number| {
            let domain = format!("a.b.c.d.e.f.g.t{number}");
            add(u8::from(number != 9), 1, domain.as_bytes())
        })
        .collect();
    let given = message(1, 1, b"a.b.c.d.e.f.g.t", &identifiers);
    // It may be opened over before its verdict.
    let found = messages(&calls, &given);
    let (names, verdicts, findings) = said(found.last().expect("the message"));
    assert_eq!(names.len(), 136);
    let all = verdict(
        136,
        "fail reject reject",
        "a.b.c.d.e.f.g.t",
        &"n".repeat(16),
    );
    assert_eq!(verdicts, vec![all; 4]);
    let entered = finding([2, 2, 0, 0], "a.b.c.d.e.f.g.t");
    assert_eq!(findings, vec![entered; 2]);
}

#[test]
fn refused_openings() {
    let calls = fixed();
    let table: [(Call, &str); 9] = [
        // "0 if empty", and where the first bad label begins.
        (open(1, 1, b""), "1 at 0"),
        (open(1, 1, b"."), "1 at 0"),
        (open(1, 1, b".."), "1 at 0"),
        (open(1, 1, b"com.."), "1 at 4"),
        (open(1, 1, b"a b."), "1 at 0"),
        (open(1, 1, b"a.b.c.\0"), "1 at 6"),
        // 1 before 3.
        (open(3, 2, b"a.b..c"), "1 at 4"),
        (open(3, 1, b"other.test"), "3 at 255"),
        (open(1, 2, b"other.test"), "3 at 255"),
    ];
    for (call, refusal) in table {
        let found = calls.iter().find(|made| made.0 == call);
        let (_, line) = found.unwrap_or_else(|| panic!("no call {call}"));
        assert_eq!(*line, format!("open refused {refusal}"));
    }
}

/// 3, 4, 2 of an identifier after others; after a next step it is too late.
#[test]
fn refused_identifiers() {
    let calls = fixed();
    let good = add(1, 1, b"example.com");
    let spf = add(0, 0, b"example.com");
    let bad = add(1, 1, b"example..com");
    let sixteen = [vec![spf.clone()], vec![good.clone(); 15]].concat();
    let table = [
        (vec![], add(2, 1, b"example.com"), "3 at 0"),
        (
            vec![good.clone(), spf.clone()],
            add(255, 255, b""),
            "3 at 2",
        ),
        (vec![good.clone()], add(2, 0, b"a..b"), "3 at 1"),
        (vec![spf.clone()], spf.clone(), "4 at 1"),
        (
            vec![spf.clone(), good.clone()],
            add(0, 1, b"a..b"),
            "4 at 2",
        ),
        (vec![spf.clone()], add(0, 3, b"a.b"), "3 at 1"),
        (sixteen.clone(), good.clone(), "4 at 16"),
        (sixteen.clone(), bad.clone(), "4 at 16"),
        (sixteen.clone(), add(2, 1, b"a.b"), "3 at 16"),
        (vec![], bad.clone(), "2 at 0"),
        (vec![good.clone()], bad, "2 at 1"),
        // Final dots.
        (vec![], add(1, 1, b"."), "2 at 0"),
        (vec![good.clone()], add(0, 1, b".."), "2 at 1"),
        (vec![], add(1, 2, b"a.b.."), "2 at 0"),
    ];
    for (accepted, refused, refusal) in table {
        let added = |call: &Call, line: &str| (call.clone(), format!("add {line}"));
        let opening = (open(1, 1, b"other.test"), "open accepted".to_string());
        let mut expected = vec![opening];
        expected.extend(accepted.iter().map(|call| added(call, "accepted")));
        expected.push(added(&refused, &format!("refused {refusal}")));
        expected.push((Call::Next, "next ask _dmarc.other.test".to_string()));
        expected.push(added(&refused, "refused 17 at 0"));
        assert!(has(&calls, &expected), "{refused}");
    }
}

/// Whether these calls come, with these lines, one after the other.
fn has(calls: &[Made], wanted: &[Made]) -> bool {
    calls.windows(wanted.len()).any(|part| part == wanted)
}

/// A call and its line.
type Expected<'a> = (Call, &'a str);

/// Checks that these calls come one after the other.
fn check_row(row: &[Expected]) {
    let made = |(call, line): &Expected| (call.clone(), line.to_string());
    let wanted: Vec<Made> = row.iter().map(made).collect();
    assert!(has(&fixed(), &wanted), "{wanted:?}");
}

/// An identifier of the author, one of kind 2 and one with a bad domain, and how
/// they end.
fn any<'a>(lines: [&'a str; 3]) -> [Expected<'a>; 3] {
    let [good, kind_2, bad] = lines;
    [
        (add(1, 1, b"example.com"), good),
        (add(2, 1, b"example.com"), kind_2),
        (add(1, 1, b"a..b"), bad),
    ]
}

const LATE: &str = "add refused 17 at 0";

/// Readings 141 to 143.
#[test]
fn added_in_time_and_too_late() {
    let answer = Call::Answer(AnswerCall {
        status: Status::Records,
        scratch: 4096,
        name: b"_dmarc.example.com".to_vec(),
        bytes: b"TX\0\x22\x21v=DMARC1; p=reject;adkim=s;aspf=s".to_vec(),
    });
    let own = verdict(1, "pass reject none", "example.com", "nan");
    let [result, next] = ["result", "next"].map(|call| format!("{call} verdict {own}"));
    let late = || any([LATE; 3]);
    let mut row = vec![
        (open(1, 1, b"example.com"), "open accepted"),
        (Call::Result, "result refused 7 at 0"),
        (add(1, 1, b"a.example"), "add accepted"),
        (Call::Field { size: 64 }, "field refused 7 at 0 out=0:6232:"),
        (add(0, 1, b"Example.com."), "add accepted"),
        (Call::Finding, "finding refused 7 at 0"),
        (add(0, 0, b"b.example"), "add refused 4 at 2"),
        (add(0, 3, b"b.example"), "add refused 3 at 2"),
        (add(1, 1, b"a..b"), "add refused 2 at 2"),
        (answer.clone(), "answer refused 5 at 0 scratch=0:29025"),
        (open(1, 1, b"a..b"), "open refused 1 at 2"),
        (add(1, 1, b"mail.example.com"), "add accepted"),
        (add(2, 2, b""), "add refused 3 at 3"),
        (Call::Next, "next ask _dmarc.example.com"),
    ];
    row.extend(late());
    row.extend([
        (open(1, 1, b".."), "open refused 1 at 0"),
        (add(1, 1, b"a.example"), LATE),
        (Call::Next, "next ask _dmarc.example.com"),
        (add(0, 1, b"a.example"), LATE),
        (answer, "answer accepted scratch=33:3583"),
    ]);
    row.extend(late());
    row.push((Call::Result, &result));
    row.extend(late());
    row.push((Call::Next, &next));
    row.extend(late());
    let field = "field wrote 26 out=26:11657:\
                 4964656e746974792d416c69676e6d656e743a20646b696d0d0a";
    row.push((Call::Field { size: 64 }, field));
    check_row(&row);
}

/// Reading 142, and an opening over a running evaluation.
#[test]
fn opened_over_a_running_evaluation() {
    let spf = || add(0, 1, b"example.com");
    let late = Call::Answer(AnswerCall::none(b"_dmarc.example.org"));
    let row = [
        (open(1, 1, b"example.com"), "open accepted"),
        (spf(), "add accepted"),
        (add(1, 1, b"a.example"), "add accepted"),
        (open(1, 1, b"example.org"), "open accepted"),
        (spf(), "add accepted"),
        (spf(), "add refused 4 at 1"),
        (Call::Next, "next ask _dmarc.example.org"),
        (open(1, 1, b"example.net"), "open accepted"),
        (late, "answer refused 5 at 0 scratch=0:29025"),
        (add(2, 1, b"a.example"), "add refused 3 at 0"),
        (spf(), "add accepted"),
        (Call::Next, "next ask _dmarc.example.net"),
        (spf(), LATE),
    ];
    check_row(&row);
}

#[test]
fn a_17th_identifier() {
    let mut row = vec![(open(1, 1, b"example.com"), "open accepted")];
    for number in 0..16 {
        let domain = format!("d{number}.example");
        row.push((add(1, 0, domain.as_bytes()), "add accepted"));
    }
    row.extend(any([
        "add refused 4 at 16",
        "add refused 3 at 16",
        "add refused 4 at 16",
    ]));
    row.push((add(0, 1, b"example.com"), "add refused 4 at 16"));
    row.push((Call::Next, "next ask _dmarc.example.com"));
    row.extend(any([LATE; 3]));
    check_row(&row);
}

/// "Only the length is wrong", with a label that begins after octet 253 or not;
/// a bad label that begins after it; 253 octets and a final dot, and two of them.
#[test]
fn authors_over_253_octets() {
    let mut said = BTreeMap::new();
    for (call, line) in fixed() {
        let Call::Open(OpenCall { author, .. }) = call else {
            continue;
        };
        if author.len() > 253 {
            let expected = match author.as_slice() {
                _ if author.contains(&b' ') && author.len() == 303 => "open refused 1 at 300",
                _ if author.contains(&b' ') => "open refused 1 at 252",
                [.., b'.', b'.'] => "open refused 1 at 254",
                [.., b'.'] if author.len() == 254 => "open accepted",
                _ => "open refused 1 at 253",
            };
            assert_eq!(line, expected);
            *said.entry(expected).or_insert(0) += 1;
        }
    }
    assert_eq!(said.len(), 5, "{said:?}");
}

/// Readings 134 and 136.
#[test]
fn final_dots() {
    let calls = fixed();
    let identifiers = [
        add(0, 1, b"example.com"),
        add(1, 1, b"mail.example.com."),
        add(1, 1, b"Mail.Example.com"),
    ];
    let given = message(1, 1, b"Example.com.", &identifiers);
    let names = ["example.com", "com", "mail.example.com"];
    let own = verdict(3, "pass reject none", "example.com", "ann");
    let entered = finding([1, 0, 0, 1], "example.com");
    check(&calls, &given, &names, &own, &entered);
}

/// Answers to the name now asked whose own spelling has one final dot or two.
#[test]
fn final_dots_of_answers() {
    let (mut one, mut two) = (0, 0);
    let mut asked = String::new();
    for (call, line) in fixed() {
        if let Some(name) = line.strip_prefix("next ask ") {
            asked = name.to_string();
        }
        let Call::Answer(given) = call else {
            continue;
        };
        let name = String::from_utf8_lossy(&given.name).to_ascii_lowercase();
        if name == format!("{asked}.") && line.starts_with("answer accepted ") {
            one += 1;
        }
        if name == format!("{asked}..") {
            assert!(line.starts_with("answer refused 5 at 0 "), "{line}");
            two += 1;
        }
    }
    assert!(one > 50 && two > 5, "{one} {two}");
}

#[test]
fn nothing_opened() {
    let calls = fixed();
    let lines: Vec<&str> = calls.iter().map(|made| made.1.as_str()).take(7).collect();
    // An untouched memory of n octets has the sum 255 n (n + 1) / 2, less a
    // multiple of 65,521: 6,232 for 64 and 29,025 for 4,096.
    let expected = [
        "next refused 7 at 0",
        "result refused 7 at 0",
        "field refused 7 at 0 out=0:0:",
        "field refused 7 at 0 out=0:6232:",
        "finding refused 7 at 0",
        "answer refused 5 at 0 scratch=0:29025",
        "answer refused 5 at 0 scratch=0:0",
    ];
    assert_eq!(lines, expected);
    // Whatever is added comes before an opening; with a refused one, and again.
    let opened = calls.iter().position(|made| made.1 == "open accepted");
    let (before, _) = calls.split_at(opened.expect("an accepted opening"));
    let added = before.iter().filter(|made| matches!(made.0, Call::Add(_)));
    let added: Vec<&Made> = added.collect();
    assert!(added.iter().all(|made| made.1 == "add refused 17 at 0"));
    for given in [
        add(1, 1, b"mail.example.com"),
        add(255, 255, b"a..b"),
        add(0, 1, b"a..b"),
    ] {
        assert_eq!(added.iter().filter(|made| made.0 == given).count(), 2);
    }
}

/// How many calls there are of each kind and with each first word or refusal.
fn endings(calls: &[Made]) -> BTreeMap<String, usize> {
    let mut counts = BTreeMap::new();
    for (_, line) in calls {
        let words: Vec<&str> = line.split(' ').collect();
        let key = match words.as_slice() {
            [call, "refused", number, ..] => format!("{call} {number}"),
            [call, word, ..] => format!("{call} {word}"),
            _ => panic!("{line}"),
        };
        *counts.entry(key).or_default() += 1;
    }
    counts
}

/// Checks that calls end in these ways and no others, each so often at least.
pub fn check_endings(calls: &[Made], least: &[(&str, usize)]) {
    let counts = endings(calls);
    let keys: Vec<&str> = counts.keys().map(String::as_str).collect();
    let wanted: Vec<&str> = least.iter().map(|(key, _)| *key).collect();
    assert_eq!(keys, wanted);
    for (key, least) in least {
        assert!(counts[*key] >= *least, "{} of {key}", counts[*key]);
    }
}

/// "For an answer: 5, 6, 10. For a field: 7, 9, 10."
#[test]
fn every_refusal_of_every_call() {
    let least = [
        ("add 17", 100),
        ("add 2", 15),
        ("add 3", 15),
        ("add 4", 10),
        ("add accepted", 400),
        ("answer 10", 100),
        ("answer 5", 100),
        ("answer 6", 100),
        ("answer accepted", 500),
        ("field 10", 50),
        ("field 7", 100),
        ("field 9", 100),
        ("field wrote", 100),
        ("finding 7", 50),
        ("finding result=0", 15),
        ("finding result=1", 50),
        ("finding result=2", 50),
        ("finding result=3", 50),
        ("finding result=4", 10),
        ("next 7", 3),
        ("next ask", 500),
        ("next verdict", 200),
        ("open 1", 26),
        ("open 3", 5),
        ("open accepted", 180),
        ("result 7", 50),
        ("result verdict", 200),
    ];
    check_endings(&fixed(), &least);
}

/// What would be entered is asked for at an opening, at an asked name, between two
/// names, where the last answer came, and where the verdict was given; and it is
/// there exactly at the verdict.
#[test]
fn findings_come_everywhere() {
    let calls = fixed();
    let mut places: BTreeMap<(&str, bool), usize> = BTreeMap::new();
    for pair in calls.windows(2) {
        let [(_, before), (Call::Finding, line)] = pair else {
            continue;
        };
        let given = line != "finding refused 7 at 0";
        let kinds = [
            "open accepted",
            "add accepted",
            "next ask",
            "answer accepted",
            "next verdict",
        ];
        let kind = kinds.into_iter().find(|kind| before.starts_with(kind));
        *places.entry((kind.unwrap_or("other"), given)).or_default() += 1;
    }
    let least = [
        ("add accepted", false),
        ("answer accepted", false),
        ("answer accepted", true),
        ("next ask", false),
        ("next verdict", true),
        ("open accepted", false),
        ("other", false),
        ("other", true),
    ];
    assert_eq!(places.keys().copied().collect::<Vec<_>>(), least);
    assert!(places.values().all(|count| *count >= 5), "{places:?}");
}

/// Checks the lent memory of calls: no short scratch is accepted, and what a
/// refused call was lent is unchanged.
pub fn check_lent(calls: &[Made]) {
    for (call, line) in calls {
        let lent = matches!(call, Call::Answer(_) | Call::Field { .. });
        if line.starts_with("answer accepted") {
            assert!(call.lent() >= 4096, "{call}");
        }
        if line.contains(" refused ") && lent {
            assert!(line.contains("=0:"), "{line}");
        }
    }
}

#[test]
fn lent_memory() {
    check_lent(&fixed());
}

/// Checks the calls that add, by the lines alone: 17 at 0 exactly where nothing
/// was opened or a next step was taken, 2 to 4 at the number of identifiers that
/// were accepted, and as many alignments of a verdict.
pub fn check_adds(calls: &[Made]) {
    let mut accepted = None;
    let mut asked = false;
    for (call, line) in calls {
        let words: Vec<&str> = line.split(' ').collect();
        match words.as_slice() {
            ["open", "accepted"] => (accepted, asked) = (Some(0), false),
            ["next", "ask" | "verdict", ..] => asked = true,
            _ => {}
        }
        if let Some((_, rest)) = line.split_once(" alignments=") {
            let letters = rest.split(' ').next().map(str::len);
            assert_eq!(letters, accepted, "{line}");
        }
        let in_time = accepted.as_mut().filter(|_| !asked);
        match (words.as_slice(), in_time) {
            (["add", "accepted"], Some(index)) => *index += 1,
            (["add", "refused", "2" | "3" | "4", "at", place], Some(index)) => {
                assert_eq!(*place, index.to_string());
            }
            (["add", "refused", "17", "at", "0"], None) => {}
            _ => assert!(!matches!(call, Call::Add(_)), "{line}"),
        }
    }
}

/// Checks that identifiers are accepted right after these refused calls, and that
/// openings come right after these calls, each so often at least.
pub fn check_neighbours(calls: &[Made], least: usize) {
    let follows = |before: &str, after: &str| {
        let pairs = calls.windows(2);
        let found = pairs.filter(|pair| pair[0].1.starts_with(before) && pair[1].1 == after);
        let count = found.count();
        assert!(count >= least, "{count} of {before}, {after}");
    };
    for call in ["result", "field", "finding", "answer", "open", "add"] {
        follows(&format!("{call} refused"), "add accepted");
    }
    for call in ["add accepted", "next ask", "answer accepted"] {
        follows(call, "open accepted");
    }
}

#[test]
fn identifiers() {
    let calls = fixed();
    check_adds(&calls);
    check_neighbours(&calls, 1);
}

#[test]
fn the_same_calls_each_time() {
    assert!(calls::fixed() == calls::fixed());
}
