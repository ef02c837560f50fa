//! Readings 35 to 50: policy texts. `repeated_tags` has 40, 41 and what Ask 2 made of them.

use crate::case::{case, REJECT};
use evaluator::policy::{read, rua_part, rua_text, valid_entries};
use evaluator::policy::{Mode, Policy, Psd, Request, Settings};
use evaluator::verdict::DmarcResult;

const VALID_NONE: Request = Request::Valid(Policy::None);
const VALID_QUARANTINE: Request = Request::Valid(Policy::Quarantine);
const VALID_REJECT: Request = Request::Valid(Policy::Reject);

fn settings(text: &[u8]) -> Settings {
    read(text).unwrap_or_else(|| panic!("{text:?} is a policy record"))
}

/// The text stands at example.com, the author domain.
fn own(text: &str) -> DmarcResult {
    case("example.com")
        .text("example.com", text)
        .verdict()
        .result
}

#[test]
fn the_settings_of_a_full_text() {
    let text = b"v=DMARC1; p=reject; sp=quarantine; np=none; adkim=s; aspf=s; psd=n; t=y; \
                 rua=mailto:r@example.com";
    let expected = Settings {
        p: VALID_REJECT,
        sp: VALID_QUARANTINE,
        np: VALID_NONE,
        adkim: Mode::Strict,
        aspf: Mode::Strict,
        psd: Psd::No,
        testing: true,
        rua_valid: true,
    };
    assert_eq!(settings(text), expected);
    let defaults = Settings {
        p: Request::Absent,
        sp: Request::Absent,
        np: Request::Absent,
        adkim: Mode::Relaxed,
        aspf: Mode::Relaxed,
        psd: Psd::Unset,
        testing: false,
        rua_valid: false,
    };
    assert_eq!(settings(b"v=DMARC1"), defaults);
}

#[test]
fn point_35_the_first_part() {
    let records: [&[u8]; 7] = [
        b"v=DMARC1",
        b"V = DMARC1 ",
        b"v\t=DMARC1;",
        b"v=DMARC1;",
        b"v= \t DMARC1\t ; p=none",
        b"v=DMARC1 ",
        b"V=DMARC1;;",
    ];
    for text in records {
        assert!(read(text).is_some(), "{text:?}");
    }
    let none: [&[u8]; 14] = [
        b" v=DMARC1",
        b"\tv=DMARC1",
        b"v=dmarc1",
        b"v=DMARC1 x",
        b"v=DMARC1\r\n",
        b"v=DMARC10",
        b"",
        b";v=DMARC1",
        b"v DMARC1",
        b"v==DMARC1",
        b"vv=DMARC1",
        b"v=DMARC",
        b"=DMARC1",
        b"p=none; v=DMARC1",
    ];
    for text in none {
        assert!(read(text).is_none(), "{text:?}");
    }
}

#[test]
fn point_36_parts_of_another_form_are_ignored() {
    let text = b"v=DMARC1;=x;p1=x;p q=x;p;;  ;sp;p=none";
    let read = settings(text);
    assert_eq!(read.p, VALID_NONE);
    assert_eq!(read.sp, Request::Absent);
}

#[test]
fn point_37_where_the_value_begins_and_what_it_may_hold() {
    for sp in [
        b"sp=no\tne".as_slice(),
        b"sp=none\x80",
        b"sp=none\x7f",
        b"sp=\x1fnone",
    ] {
        let text = [b"v=DMARC1; p=reject; ", sp].concat();
        let read = settings(&text);
        assert_eq!(read.sp, Request::Absent, "{sp:?}");
        assert_eq!(read.p, VALID_REJECT);
    }
    assert_eq!(settings(b"v=DMARC1;p=reject\t").p, VALID_REJECT);
    assert_eq!(settings(b"v=DMARC1;p=\treject").p, VALID_REJECT);
    assert_eq!(
        settings(b"v=DMARC1; \t p \t = \t reject \t ").p,
        VALID_REJECT
    );
    // "sp absent, usable, policy for news.example.com = reject"
    let verdict = case("news.example.com")
        .text("example.com", "v=DMARC1; p=reject; sp=no\tne")
        .verdict();
    assert_eq!(
        (verdict.result, verdict.policy),
        (DmarcResult::Fail, REJECT)
    );
}

#[test]
fn point_38_an_empty_value() {
    for text in [
        b"v=DMARC1; p=reject; sp=".as_slice(),
        b"v=DMARC1; p=reject; sp= ; np=\t",
    ] {
        let read = settings(text);
        assert_eq!(read.p, VALID_REJECT);
        assert_eq!(read.sp, Request::Absent);
        assert_eq!(read.np, Request::Absent);
    }
    assert_eq!(settings(b"v=DMARC1; p=").p, Request::Absent);
}

#[test]
fn point_39_the_first_equals_sign_parts() {
    assert_eq!(settings(b"v=DMARC1; p==reject").p, Request::Invalid);
}

#[test]
fn point_42_values_in_either_case_and_whole() {
    assert_eq!(settings(b"v=DMARC1; p=REJECT").p, VALID_REJECT);
    assert_eq!(settings(b"v=DMARC1; p=Quarantine").p, VALID_QUARANTINE);
    assert_eq!(settings(b"v=DMARC1; p=reject now").p, Request::Invalid);
    assert_eq!(settings(b"v=DMARC1; psd=yes").psd, Psd::Unset);
    assert_eq!(settings(b"v=DMARC1; psd=Y").psd, Psd::Yes);
    assert_eq!(settings(b"v=DMARC1; psd=N").psd, Psd::No);
    assert_eq!(settings(b"v=DMARC1; psd=u").psd, Psd::Unset);
    assert_eq!(settings(b"v=DMARC1; adkim=strict").adkim, Mode::Relaxed);
    assert_eq!(settings(b"v=DMARC1; adkim=S").adkim, Mode::Strict);
    assert_eq!(settings(b"v=DMARC1; ASPF=s").aspf, Mode::Strict);
    assert!(settings(b"v=DMARC1; t=Y").testing);
    assert!(!settings(b"v=DMARC1; t=yes").testing);
    assert_eq!(settings(b"v=DMARC1; np=no").np, Request::Invalid);
}

#[test]
fn point_43_other_names_have_no_effect() {
    let plain = settings(b"v=DMARC1; p=reject");
    let with = settings(b"v=DMARC1; fo=1; ruf=mailto:x@y; pct=0; rf=afrf; ri=1; q=s; p=reject");
    assert_eq!(with, plain);
}

#[test]
fn point_44_any_length_and_any_octets() {
    let mut text = b"v=DMARC1; x=".to_vec();
    text.extend(vec![b'z'; 100_000]);
    text.extend(b"; p=none; rua=a:");
    text.extend(vec![b'z'; 300_000]);
    let read = settings(&text);
    assert_eq!(read.p, VALID_NONE);
    assert!(read.rua_valid);
    let octets: Vec<u8> = (0..=255).cycle().take(10_000).collect();
    assert_eq!(evaluator::policy::read(&octets), None);
}

#[test]
fn point_45_rua_entries() {
    let valid = |rua: &str| valid_entries(rua.as_bytes()).len();
    for entry in [
        "a:%41",
        "mailto::",
        "x+y:#",
        "mailto:r@example.com",
        "A1+-.:x",
        "a:-._~:/?#[]@$&'()*+;=",
    ] {
        assert_eq!(valid(entry), 1, "{entry}");
    }
    for entry in [
        "mailto:",
        ":x",
        "1a:x",
        "mailto:a%2",
        "mailto:a%",
        "mailto:a%2g",
        "mailto:a b",
        "mailto:\"x\"@y",
        "mailto:a\\b",
        "a:<x>",
        "a:{x}",
        "a:^|`",
        "a_b:c",
        "+a:c",
        "mailto",
        "",
        ",",
    ] {
        assert_eq!(valid(entry), 0, "{entry}");
    }
    assert_eq!(valid(", ,mailto:r@e.com"), 1);
    assert_eq!(valid("a:x , b:y,c"), 2);
    assert_eq!(valid_entries(b" a:x , b:y "), [b"a:x", b"b:y"]);
    // Without p: permerror, or fail by a policy of none.
    assert_eq!(own("v=DMARC1; rua=,"), DmarcResult::Permerror);
    assert_eq!(own("v=DMARC1; rua=, ,mailto:r@e.com"), DmarcResult::Fail);
}

#[test]
fn point_46_no_exclamation_mark() {
    let text = "v=DMARC1; p=often; rua=mailto:r@example.com!10m";
    assert_eq!(own(text), DmarcResult::Permerror);
    let encoded = "v=DMARC1; p=often; rua=mailto:r@example.com%21";
    assert_eq!(own(encoded), DmarcResult::Fail);
}

#[test]
fn point_47_the_rua_text_as_a_part_of_the_text() {
    let text = b"v=DMARC1; p=none; rua= \t mailto:a@b , x \t ; t=y";
    assert_eq!(rua_text(text), b"mailto:a@b , x");
    assert_eq!(rua_part(text), (25, 14));
    // Valid entries or not.
    assert_eq!(rua_part(b"v=DMARC1;rua=,"), (13, 1));
    assert_eq!(rua_text(b"v=DMARC1; RUA=no"), b"no");
    // Empty if absent, or if it is no policy record.
    for text in [
        b"v=DMARC1; p=none".as_slice(),
        b"v=DMARC1; rua=",
        b"v=dmarc1; rua=mailto:a@b",
        b"",
    ] {
        assert_eq!(rua_part(text), (0, 0), "{text:?}");
        assert_eq!(rua_text(text), b"");
    }
    // The only well-formed part.
    assert_eq!(rua_text(b"v=DMARC1; rua=; rua=a:\x80; rua=b:c"), b"b:c");
}

#[test]
fn point_48_dropping_at_one_name() {
    let asked = |texts: &[&str]| case("example.com").texts("example.com", texts).verdict();
    let two = asked(&["v=DMARC1; p=none", "v=DMARC1"]);
    assert_eq!((two.result, two.asked), (DmarcResult::None, 2));
    let identical = asked(&["v=DMARC1; p=none", "v=DMARC1; p=none"]);
    assert_eq!(identical.result, DmarcResult::None);
    let junk_beside = asked(&["junk", "v=DMARC1; p=reject", "v=spf1"]);
    assert_eq!(
        (junk_beside.result, junk_beside.policy),
        (DmarcResult::Fail, REJECT)
    );
    let unusable_beside = asked(&["v=DMARC1; p=often", "v=DMARC1; p=reject"]);
    assert_eq!(unusable_beside.result, DmarcResult::None);
    // After dropping, the walk goes on.
    case("news.example.com")
        .texts(
            "news.example.com",
            &["v=DMARC1; p=none", "v=DMARC1; p=none"],
        )
        .text("example.com", "v=DMARC1; p=quarantine")
        .gives(
            "fail quarantine quarantine",
            &["news.example.com", "example.com", "com"],
        );
}

#[test]
fn point_49_p_absent() {
    case("example.com")
        .text("example.com", "v=DMARC1")
        .gives("permerror none none", &["example.com"]);
    case("example.com")
        .text("example.com", "v=DMARC1; rua=mailto:r@example.com")
        .gives("fail none none", &["example.com"]);
}

#[test]
fn point_50_a_semicolon_in_rua_splits() {
    let text = b"v=DMARC1; p=none; rua=mailto:a;b@c";
    assert_eq!(rua_text(text), b"mailto:a");
    assert_eq!(settings(text).p, VALID_NONE);
}
