//! Ask 2 of document 02, readings 125 and 126: one tag written twice. They take
//! the place of what readings 40 and 41 say of it.

use crate::case::{case, NONE, QUARANTINE, REJECT};
use evaluator::policy::{read, repeated_name, rua_part, rua_text};
use evaluator::policy::{Policy, Psd, Request};
use evaluator::txt::{self, Answer, Reply};
use evaluator::verdict::DmarcResult;

/// No policy record, for this name.
fn repeats(text: &[u8], name: &[u8]) {
    let shown = text.escape_ascii();
    assert_eq!(read(text), None, "{shown}");
    assert_eq!(repeated_name(text), Some(name), "{shown}");
    assert_eq!(rua_part(text), (0, 0), "{shown}");
}

/// A policy record.
fn stays(text: &[u8]) {
    let shown = text.escape_ascii();
    assert!(read(text).is_some(), "{shown}");
    assert_eq!(repeated_name(text), None, "{shown}");
}

#[test]
fn point_125_a_known_name_twice() {
    repeats(b"v=DMARC1; p=none; p=reject", b"p");
    repeats(b"v=DMARC1; p=reject; p=reject", b"p");
    repeats(b"v=DMARC1; p=often; p=reject", b"p");
    repeats(b"v=DMARC1; p==reject; p=reject", b"p");
    repeats(b"v=DMARC1;p=none;sp=none;np=none;p=none", b"p");
    repeats(b"v=DMARC1; p=none; p=none; p=none", b"p");
    for name in ["p", "sp", "np", "adkim", "aspf", "psd", "t", "rua"] {
        let text = format!("v=DMARC1; {name}=x; {name}=y");
        repeats(text.as_bytes(), name.as_bytes());
        let apart = format!("v=DMARC1; {name}=x; fo=1; {name}=y");
        repeats(apart.as_bytes(), name.as_bytes());
    }
}

#[test]
fn point_125_the_first_v_with_them() {
    repeats(b"v=DMARC1; V=x", b"V");
    repeats(b"v=DMARC1; v=DMARC1; p=none", b"v");
    repeats(b"v=DMARC1; p=none; v=DMARC1", b"v");
    repeats(b"v=DMARC1; v=DMARC2; p=none", b"v");
    repeats(b"V = DMARC1 ; p=none; \t v \t = \t DMARC1 \t ", b"v");
    stays(b"v=DMARC1; v; v=; v= ; v=\x80; v=DMA\tRC1; v v=x; p=none");
    stays(b"v=DMARC1; vv=DMARC1; p=v=DMARC1");
}

#[test]
fn point_125_unknown_names() {
    repeats(b"v=DMARC1; foo=1; FOO=2", b"FOO");
    repeats(b"v=DMARC1; fo=1; fo=1", b"fo");
    repeats(b"v=DMARC1; p=none; x=1; y=2; z=3; x=4", b"x");
    repeats(b"v=DMARC1; p=none; x=1; y=2; z=3; y=4; x=5", b"y");
    stays(b"v=DMARC1; x=1; xx=2; xxx=3; y=1; xy=2; yx=3; p=none");
    stays(b"v=DMARC1; x=y; y=x; z=z=z; p=p=p");
}

#[test]
fn point_125_in_either_case() {
    repeats(b"v=DMARC1; P=none; p=reject", b"p");
    repeats(b"v=DMARC1; p=none; P=reject", b"P");
    repeats(b"v=DMARC1; aDkIm=s; AdKiM=s", b"AdKiM");
    repeats(
        b"v=DMARC1; abcdefghijklmnopqrstuvwxyz=1; ABCDEFGHIJKLMNOPQRSTUVWXYZ=1",
        b"ABCDEFGHIJKLMNOPQRSTUVWXYZ",
    );
    // Other octets that part in the same bit are no letters.
    stays(b"v=DMARC1; x@=1; x`=1; x[=1; x{=1; p=none");
}

#[test]
fn point_125_blanks_around_names() {
    repeats(b"v=DMARC1;p=none; p=none", b"p");
    repeats(b"v=DMARC1;\tp =none;p\t=none", b"p");
    repeats(b"v=DMARC1; \t sp \t = \t none \t ;sp=none", b"sp");
    repeats(b"v=DMARC1;x=1;; ;\t;x=1;", b"x");
}

#[test]
fn point_125_ill_formed_parts_do_not_count() {
    let sp = |text: &[u8]| read(text).map(|settings| settings.sp);
    let none = Some(Request::Valid(Policy::None));
    for ill_formed in [
        b"sp=".as_slice(),
        b"sp= \t ",
        b"sp",
        b"sp none",
        b"sp:none",
        b"sp sp=none",
        b"sp1=none",
        b"sp=no\tne",
        b"sp=none\x1f",
        b"sp=none\x7f",
        b"sp=\x80",
        b"sp=none\xff",
    ] {
        let head: &[u8] = b"v=DMARC1; ";
        let before = [head, ill_formed, b"; sp=none"].concat();
        let after = [head, b"sp=none; ", ill_formed].concat();
        let both = [head, ill_formed, b"; sp=none; ", ill_formed].concat();
        for text in [before, after, both] {
            stays(&text);
            assert_eq!(sp(&text), none, "{}", text.escape_ascii());
        }
        let twice = [head, b"sp=none; ", ill_formed, b"; SP=none"].concat();
        repeats(&twice, b"SP");
    }
    // The edges of 32 to 126 are well-formed.
    repeats(b"v=DMARC1; sp=none; sp=a b", b"sp");
    repeats(b"v=DMARC1; sp=none; sp=~", b"sp");
    // 36: no letters are no name.
    stays(b"v=DMARC1; =x; =y; ==; p=none");
    stays(b"v=DMARC1;;;p=none;;");
}

#[test]
fn point_125_what_begins_otherwise_is_not_looked_into() {
    for text in [
        b"".as_slice(),
        b"p=none; p=none",
        b"v=dmarc1; p=none; p=none",
        b" v=DMARC1; p=none; p=none",
    ] {
        assert_eq!(read(text), None);
        assert_eq!(repeated_name(text), None);
    }
}

/// So many names of letters, no two alike.
fn names(count: usize) -> Vec<String> {
    let letter = |number: usize| char::from(b'a' + (number % 26) as u8);
    let name = |number: usize| [number / 676, number / 26, number].map(letter);
    (0..count)
        .map(|number| name(number).iter().collect())
        .collect()
}

#[test]
fn point_125_a_long_list_of_names() {
    let mut names = names(10_000);
    let text = |names: &[String]| format!("v=DMARC1;{}=1", names.join("=1;"));
    names.retain(|name| name != "psd");
    stays(text(&names).as_bytes());
    let last = names.last().cloned().expect("a name");
    for again in ["aaa", "AAB", "nzz", "v", last.as_str()] {
        let mut more = names.clone();
        more.push(again.to_string());
        repeats(text(&more).as_bytes(), again.as_bytes());
    }
}

#[test]
fn point_126_dropped_before_records_are_counted() {
    let at = |texts: &[&str]| case("example.com").texts("example.com", texts).verdict();
    let alone = at(&["v=DMARC1; p=none; p=reject"]);
    assert_eq!((alone.result, alone.asked), (DmarcResult::None, 2));
    let repeat = "v=DMARC1; p=reject; p=reject";
    let good = "v=DMARC1; p=quarantine";
    for texts in [
        [repeat, good].as_slice(),
        &[good, repeat],
        &[repeat, good, repeat, "junk"],
    ] {
        let verdict = at(texts);
        let seen = (verdict.result, verdict.policy, verdict.asked);
        assert_eq!(seen, (DmarcResult::Fail, QUARANTINE, 1));
    }
    assert_eq!(at(&[good, repeat, good]).result, DmarcResult::None);
    assert_eq!(at(&[repeat, repeat]).result, DmarcResult::None);
    // The walk goes on.
    case("news.example.com")
        .text("news.example.com", "v=DMARC1; p=none; x=1; X=2")
        .text("example.com", "v=DMARC1; p=reject")
        .gives(
            "fail reject reject",
            &["news.example.com", "example.com", "com"],
        );
}

#[test]
fn point_126_psd_twice_ends_no_walk() {
    let settings = read(b"v=DMARC1; p=none; psd=y").expect("a record");
    assert_eq!(settings.psd, Psd::Yes);
    let twice = case("a.example.com").text("example.com", "v=DMARC1; p=none; psd=y; psd=y");
    assert_eq!(twice.walk("a.example.com").len(), 3);
    assert_eq!(
        twice.organizational("a.example.com").as_deref(),
        Some("a.example.com")
    );
    twice.gives("none none none", &["a.example.com", "example.com", "com"]);
    let once = case("a.example.com").text("example.com", "v=DMARC1; p=none; psd=y");
    once.gives("fail none none", &["a.example.com", "example.com"]);
}

#[test]
fn point_126_an_identifier_s_walk() {
    let own = "v=DMARC1; p=reject";
    let with = |text: &str| {
        case("example.com")
            .text("example.com", own)
            .text("mail.example.com", text)
            .dkim("mail.example.com")
            .verdict()
    };
    assert_eq!(with("v=DMARC1; p=none; psd=n").result, DmarcResult::Fail);
    let twice = with("v=DMARC1; p=none; psd=n; psd=n");
    assert_eq!((twice.result, twice.policy), (DmarcResult::Pass, REJECT));
}

#[test]
fn point_126_rua_twice_is_no_rua_text() {
    assert_eq!(rua_text(b"v=DMARC1; p=none; rua=a:b"), b"a:b");
    assert_eq!(rua_text(b"v=DMARC1; p=none; rua=a:b; rua=c:d"), b"");
    assert_eq!(rua_text(b"v=DMARC1; rua=a:b; x=1; x=1"), b"");
    assert_eq!(rua_text(b"v=DMARC1; rua=; rua=c:d"), b"c:d");
    // 50: a semicolon splits in rua too.
    assert_eq!(rua_text(b"v=DMARC1; rua=mailto:a;rua=b@c"), b"");
    let verdict = case("example.com")
        .text("example.com", "v=DMARC1; rua=a:b; rua=a:b")
        .verdict();
    assert_eq!((verdict.result, verdict.policy), (DmarcResult::None, NONE));
}

#[test]
fn texts_that_would_be_records() {
    let bytes = b"TX\0\x12\x11v=DMARC1;x=1;x=1;TX\0\x09\x08v=DMARC1TX\0\x05\x04x;x;";
    let given = Answer::records(bytes);
    let texts = txt::given_texts(given);
    let expected: [&[u8]; 3] = [b"v=DMARC1;x=1;x=1;", b"v=DMARC1", b"x;x;"];
    assert_eq!(texts, expected);
    let repeated: Vec<_> = texts.iter().map(|text| repeated_name(text)).collect();
    assert_eq!(repeated, [Some(b"x".as_slice()), None, None]);
    assert!(matches!(txt::reply(given), Reply::Record(_)));
    assert!(txt::given_texts(Answer::NONE).is_empty());
    assert!(txt::given_texts(Answer::ERROR).is_empty());
    assert!(txt::given_texts(Answer::records(b"TX\0\x01")).is_empty());
}
