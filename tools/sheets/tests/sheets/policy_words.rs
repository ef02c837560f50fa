//! Policy texts in words.

use sheets::policy_words::PolicyRecord;

fn faults(text: &str) -> Vec<String> {
    let record = PolicyRecord::read(text.as_bytes());
    record.unwrap_or_else(|why| panic!("{why}")).faults()
}

#[test]
fn what_has_not_its_meaning() {
    let text = "v=DMARC1; p=reject; sp=often; adkim=s; aspf=x; psd=yes; t=n; pct=50; np=; \
                rua=mailto:a@b.c, d@e.f;";
    let expected = [
        "sp: invalid, since \"often\" is not one of none, quarantine, reject",
        "aspf: r, the default, since \"x\" is not one of r, s",
        "psd: u, the default, since \"yes\" is not one of y, n, u",
        "rua: entry 2, \"d@e.f\", is not valid: it has no `:`, as in mailto:a@example.com",
        "ignored: \"pct=50\", since the tag is unknown",
        "ignored: \"np=\", since it has no value",
    ];
    assert_eq!(faults(text), expected);
    assert!(faults("v=DMARC1; p=reject; sp=none; adkim=r; psd=u; t=y; rua=a:b").is_empty());
}

#[test]
fn what_makes_a_record_not_usable() {
    let why = |text: &str| {
        let record = PolicyRecord::read(text.as_bytes()).map_err(|why| panic!("{why}"));
        record.ok().and_then(|record| record.not_usable())
    };
    assert_eq!(why("v=DMARC1; p=none; sp=none"), None);
    let absent = "p is absent; rua has no valid entry, so the result is permerror";
    assert_eq!(why("v=DMARC1").as_deref(), Some(absent));
    let two = "p is invalid and np is invalid; \
               rua has a valid entry, so all three policies read as none";
    assert_eq!(why("v=DMARC1; p=x; np=y; rua=a:b").as_deref(), Some(two));
}

#[test]
fn why_a_text_is_no_policy_record() {
    let why = |text: &str| PolicyRecord::read(text.as_bytes()).err();
    let front = |part: &str| format!("its first part is \"{part}\", and not v=DMARC1: ");
    let case = "its value is DMARC1 in capitals, and nothing else";
    assert_eq!(why("v=dmarc1; p=none"), Some(front("v=dmarc1") + case));
    let other = "it does not begin with v";
    assert_eq!(why("p=none; v=DMARC1"), Some(front("p=none") + other));
    let blank = "no blank may stand before v";
    assert_eq!(why(" v=DMARC1"), Some(front(" v=DMARC1") + blank));
    let equals = "no `=` comes after v";
    assert_eq!(why("v:DMARC1"), Some(front("v:DMARC1") + equals));
    let twice = "tag fo is written twice";
    assert_eq!(why("v=DMARC1; FO=1; fo=1").as_deref(), Some(twice));
}

#[test]
fn all_lines_of_a_record() {
    let record = PolicyRecord::read(b"v=DMARC1; rua=x").unwrap_or_else(|why| panic!("{why}"));
    let expected = [
        "p: absent",
        "sp: absent",
        "np: absent",
        "adkim: r, the default",
        "aspf: r, the default",
        "psd: u, the default",
        "t: n, the default",
        "rua: \"x\", without a valid entry",
        "  entry 1, \"x\", is not valid: it has no `:`, as in mailto:a@example.com",
        "usable: no, since p is absent; rua has no valid entry, so the result is permerror",
    ];
    assert_eq!(record.lines(), expected);
}
