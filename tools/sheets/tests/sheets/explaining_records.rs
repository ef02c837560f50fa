//! Explanations of the texts under the asked names, and of names not asked.

use crate::explaining::{lines, sheet};

/// Whether a line is among those of a description.
fn has(description: &str, line: &str) {
    let told = lines(&sheet(description));
    assert!(told.iter().any(|own| own == line), "{line}: {told:#?}");
}

#[test]
fn texts_that_are_no_record_and_records_that_are_dropped() {
    let told = lines(&sheet(
        r#"author news.example.com exists supported
        answer _dmarc.news.example.com "v=spf1 -all"
        answer _dmarc.news.example.com "v=dmarc1; p=reject"
        answer _dmarc.example.com "v=DMARC1; p=none"
        answer _dmarc.example.com "v=DMARC1; p=" "reject"
        answer _dmarc.com none"#,
    ));
    let expected = [
        "policy record: none; the author's walk found no record that applies",
        "a text at news.example.com is no policy record: its first part is \"v=spf1 -all\", \
         and not v=DMARC1: its value is DMARC1 in capitals, and nothing else",
        "  text: \"v=spf1 -all\"",
        "a text at news.example.com is no policy record: its first part is \"v=dmarc1\", \
         and not v=DMARC1: its value is DMARC1 in capitals, and nothing else",
        "  text: \"v=dmarc1; p=reject\"",
        "2 policy records at example.com, so all of them are dropped",
        "  text: \"v=DMARC1; p=none\"",
        "  text: \"v=DMARC1; p=reject\"",
        "author's organizational domain: news.example.com",
    ];
    assert_eq!(told[1..10], expected);
}

#[test]
fn tags_that_are_ignored_or_make_a_record_not_usable() {
    let told = lines(&sheet(
        r#"author b exists supported
        answer _dmarc.b "v=DMARC1; p=reject; np=never; adkim=strict; pct=50; junk; rua=a:b,c""#,
    ));
    let expected = [
        "  not usable, since np is invalid; rua has a valid entry, \
         so all three policies read as none",
        "  np: invalid, since \"never\" is not one of none, quarantine, reject",
        "  adkim: r, the default, since \"strict\" is not one of r, s",
        "  rua: entry 2, \"c\", is not valid: it has no `:`, as in mailto:a@example.com",
        "  ignored: \"pct=50\", since the tag is unknown",
        "  ignored: \"junk\", since it has no `=`",
    ];
    assert_eq!(told[3..9], expected);
}

#[test]
fn a_target_that_is_too_long_is_not_asked() {
    let label = "x".repeat(60);
    let long = format!("{label}.{label}.{label}.{label}.com");
    assert_eq!(long.len(), 247);
    let line = format!("not asked: {long}, over 246 octets, so it counts as none");
    has(&format!("author {long} exists supported"), &line);
    let own = "answer _dmarc.b \"v=DMARC1; p=none\"";
    has(
        &format!("author b exists supported\ndkim pass {long}\n{own}"),
        &line,
    );
    let asked = &long[1..];
    let told = lines(&sheet(&format!("author {asked} exists supported")));
    assert!(told.iter().all(|line| !line.starts_with("not asked")));
}

#[test]
fn errors_answered_and_names_without_an_answer() {
    let front = "policy record: not known; the author's walk ended in an error at b ";
    let author = "author b exists supported\n";
    has(author, &format!("{front}(no answer is given for it)"));
    let answered = format!("{author}answer _dmarc.b error");
    has(&answered, &format!("{front}(its lookup failed)"));
}
