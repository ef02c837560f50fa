//! Readings 51 to 60: walks and organizational domains.

use crate::case::{case, domain_of, words, Case};
use crate::octets::{E, Y};
use evaluator::verdict::DmarcResult;

fn organizational(domain: &str, records: &[(&str, &str)]) -> Option<String> {
    let with = |case: Case, (at, text): &(&str, &str)| case.text(at, text);
    records
        .iter()
        .fold(case(domain), with)
        .organizational(domain)
}

fn is(domain: &str) -> Option<String> {
    Some(domain.to_string())
}

#[test]
fn point_51_boundaries() {
    let looks = |labels: usize| {
        let domain = "a.".repeat(labels - 1) + "a";
        case(&domain).walk(&domain).len()
    };
    for labels in 1..=8 {
        assert_eq!(looks(labels), labels);
    }
    for labels in 9..=14 {
        assert_eq!(looks(labels), 8);
    }
    let eight = case("a.b.c.d.e.f.g.h").walk("a.b.c.d.e.f.g.h");
    assert_eq!(eight[1], "b.c.d.e.f.g.h");
    let nine = case("a.b.c.d.e.f.g.h.i").walk("a.b.c.d.e.f.g.h.i");
    assert_eq!(nine[1], "c.d.e.f.g.h.i");
}

#[test]
fn rfc_9989_4_10_eight_queries() {
    let start = "a.b.c.d.e.f.g.h.i.j.mail.example.com";
    let expected = [
        start,
        "g.h.i.j.mail.example.com",
        "h.i.j.mail.example.com",
        "i.j.mail.example.com",
        "j.mail.example.com",
        "mail.example.com",
        "example.com",
        "com",
    ];
    assert_eq!(case(start).walk(start), expected);
}

#[test]
fn rfc_9989_5_1_8_a_zone_cut_that_is_never_discovered() {
    let start = "mail.a.b.c.d.e.f.g.example.com";
    let names = case(start)
        .text("b.c.d.e.f.g.example.com", "v=DMARC1; p=reject; psd=n")
        .text("example.com", "v=DMARC1; p=none")
        .walk(start);
    let expected = [
        start,
        "c.d.e.f.g.example.com",
        "d.e.f.g.example.com",
        "e.f.g.example.com",
        "f.g.example.com",
        "g.example.com",
        "example.com",
        "com",
    ];
    assert_eq!(names, expected);
}

#[test]
fn rfc_9989_4_10_2_organizational_domains() {
    let plain = "v=DMARC1; p=none";
    let start = "a.mail.example.com";
    let two = [("mail.example.com", plain), ("example.com", plain)];
    assert_eq!(organizational(start, &two), is("example.com"));
    let psd_n = [("mail.example.com", "v=DMARC1; p=none; psd=n")];
    assert_eq!(organizational(start, &psd_n), is("mail.example.com"));
    let psd_y = [("com", "v=DMARC1; p=none; psd=y")];
    assert_eq!(organizational(start, &psd_y), is("example.com"));
    assert_eq!(organizational(start, &[]), is(start));
}

#[test]
fn point_52_psd_y_at_the_start() {
    assert_eq!(organizational("example", &[("example", Y)]), is("example"));
    assert_eq!(
        organizational("shop.example", &[("shop.example", Y)]),
        is("shop.example")
    );
    let verdict = case("shop.example")
        .text("shop.example", "v=DMARC1; p=quarantine; sp=reject; psd=y")
        .gives("fail quarantine quarantine", &["shop.example"]);
    assert_eq!(domain_of(&verdict), "shop.example");
}

#[test]
fn point_53_one_walk_from_the_authors_own_name() {
    let case = case("shop.example").text("example", Y).dkim("example");
    assert_eq!(case.organizational("shop.example"), is("shop.example"));
    assert_eq!(case.organizational("example"), is("example"));
    let verdict = case.gives("fail reject reject", &["shop.example", "example"]);
    assert_eq!(words(&verdict.alignments), ["not aligned"]);
    assert_eq!(domain_of(&verdict), "example");
}

#[test]
fn point_54_one_more_label_that_was_never_looked_at() {
    let author = "a.b.c.d.e.f.g.h.i.example";
    let case = case(author)
        .text("d.e.f.g.h.i.example", Y)
        .text("c.d.e.f.g.h.i.example", "v=DMARC1; p=none; adkim=s")
        .dkim("c.d.e.f.g.h.i.example");
    assert_eq!(case.organizational(author), is("c.d.e.f.g.h.i.example"));
    let verdict = case.gives(
        "pass reject none",
        &[author, "d.e.f.g.h.i.example", "c.d.e.f.g.h.i.example"],
    );
    assert_eq!(domain_of(&verdict), "d.e.f.g.h.i.example");
}

#[test]
fn point_55_a_record_between_is_passed_over() {
    let case = case("a.b.shop.example")
        .text("b.shop.example", "v=DMARC1; p=none")
        .text("example", Y);
    assert_eq!(case.organizational("a.b.shop.example"), is("shop.example"));
    let verdict = case.gives(
        "fail reject reject",
        &[
            "a.b.shop.example",
            "b.shop.example",
            "shop.example",
            "example",
        ],
    );
    assert_eq!(domain_of(&verdict), "example");
}

#[test]
fn point_56_the_shortest_domain_with_a_record() {
    let plain = "v=DMARC1; p=none";
    let start = "a.b.example.com";
    let unusable = [("b.example.com", plain), ("com", "v=DMARC1; p=often")];
    assert_eq!(organizational(start, &unusable), is("com"));
    let cancelled = case(start)
        .text("b.example.com", plain)
        .texts("com", &[plain, plain]);
    assert_eq!(cancelled.organizational(start), is("b.example.com"));
}

/// A domain of labels of these lengths.
fn of_lengths(lengths: &[usize]) -> String {
    let labels: Vec<String> = lengths.iter().map(|length| "x".repeat(*length)).collect();
    labels.join(".")
}

#[test]
fn point_57_a_target_over_246_octets_is_not_asked() {
    let long = of_lengths(&[10, 63, 63, 63, 47]);
    assert_eq!(long.len(), 250);
    let asked = case(&long).walk(&long);
    assert_eq!(asked.len(), 4);
    assert_eq!(asked[0].len(), 239);
    let at_246 = of_lengths(&[6, 63, 63, 63, 47]);
    assert_eq!(at_246.len(), 246);
    assert_eq!(case(&at_246).walk(&at_246).len(), 5);
    let at_247 = of_lengths(&[7, 63, 63, 63, 47]);
    assert_eq!(case(&at_247).walk(&at_247).len(), 4);
    // As author: no own record and no pause; none is the result.
    let verdict = case(&long).dkim(&long).verdict();
    assert_eq!((verdict.result, verdict.asked), (DmarcResult::None, 4));
    // As an identifier: 2 for the author, 4 more for the walk.
    let verdict = case("example.com")
        .text("example.com", "v=DMARC1; p=none")
        .dkim(&long)
        .verdict();
    assert_eq!((verdict.result, verdict.asked), (DmarcResult::Fail, 6));
    // 127 labels of one octet: only the domain itself is too long.
    let many = "a.".repeat(126) + "a";
    assert_eq!(many.len(), 253);
    assert_eq!(case(&many).walk(&many).len(), 7);
}

#[test]
fn point_58_longest_first_psd_n_ends_the_walk() {
    let case = case("a.b.example.com")
        .text("b.example.com", "v=DMARC1; p=none; psd=n")
        .text("com", Y);
    assert_eq!(case.organizational("a.b.example.com"), is("b.example.com"));
    assert_eq!(
        case.walk("a.b.example.com"),
        ["a.b.example.com", "b.example.com"]
    );
}

#[test]
fn point_59_after_an_error_it_is_unknown() {
    let plain = "v=DMARC1; p=none";
    let records = case("a.b.c").text("a.b.c", plain).error("b.c");
    assert_eq!(records.organizational("a.b.c"), None);
    assert_eq!(records.walk("a.b.c"), ["a.b.c", "b.c"]);
    let two = case("a.b.c").texts("b.c", &[plain, plain]);
    assert_eq!(two.organizational("a.b.c"), is("a.b.c"));
    // An identifier's walk: unknown, so temperror.
    let verdict = case("example.org")
        .text("example.org", plain)
        .text("a.b.c", plain)
        .error("b.c")
        .dkim("a.b.c")
        .gives(
            "temperror none defer",
            &["example.org", "org", "a.b.c", "b.c"],
        );
    assert_eq!(words(&verdict.alignments), ["unknown"]);
}

#[test]
fn point_60_paused_and_psd() {
    // Ended at its own name: completing asks nothing.
    case("shop.example")
        .text("shop.example", "v=DMARC1; p=none; psd=n")
        .dkim("mail.shop.example")
        .gives("pass none none", &["shop.example", "mail.shop.example"]);
    // Paused, and it stays so if nothing is to be compared.
    case("example.com")
        .text("example.com", E)
        .spf("mail.example.com")
        .gives("fail reject reject", &["example.com"]);
}

#[test]
fn readings_that_look_right_and_are_not() {
    // The nearest record is not the organizational one without psd=n.
    let plain = "v=DMARC1; p=none";
    let nearest = [("mail.example.com", plain), ("example.com", plain)];
    assert_eq!(
        organizational("a.mail.example.com", &nearest),
        is("example.com")
    );
}
