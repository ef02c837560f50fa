//! What a record sets, in lines.

use records::code::Proved;
use records::reading::lines;

/// All lines of a record.
fn says(text: &[u8], expected: &[&str]) {
    let said = lines(&Proved, text).unwrap_or_else(|why| panic!("{why}"));
    assert_eq!(said, expected, "{}", text.escape_ascii());
}

/// Why a text is no policy record.
fn no_record(text: &[u8], why: &str) {
    let expected = format!("no policy record: {why}");
    assert_eq!(lines(&Proved, text), Err(expected));
}

/// The lines of `v=DMARC1; p=none` with one of them replaced and others added.
fn plain(line: usize, replaced: &str, added: &[&str]) -> Vec<String> {
    let mut lines = [
        "p: none",
        "sp: absent",
        "np: absent",
        "adkim: r, the default",
        "aspf: r, the default",
        "psd: u, the default",
        "t: n, the default",
        "rua: absent",
        "usable: yes",
    ]
    .map(str::to_string)
    .to_vec();
    lines[line] = replaced.to_string();
    lines.extend(added.iter().map(|line| line.to_string()));
    lines
}

/// A text after `v=DMARC1; p=none; ` says the plain lines but for this.
fn with(parts: &[u8], line: usize, replaced: &str, added: &[&str]) {
    let text = [b"v=DMARC1; p=none; ", parts].concat();
    let expected = plain(line, replaced, added);
    assert_eq!(
        lines(&Proved, &text),
        Ok(expected),
        "{}",
        text.escape_ascii()
    );
}

#[test]
fn defaults_and_their_opposites() {
    let expected = plain(0, "p: none", &[]);
    assert_eq!(lines(&Proved, b"v=DMARC1; p=none"), Ok(expected));
    says(
        b"v=DMARC1; p=REJECT; sp=none; np=quarantine; adkim=S; aspf=s; psd=n; t=y; rua=a:b",
        &[
            "p: reject",
            "sp: none",
            "np: quarantine",
            "adkim: s",
            "aspf: s",
            "psd: n",
            "t: y",
            "rua: \"a:b\", with a valid entry",
            "usable: yes",
        ],
    );
    // A default that is written is the default.
    with(b"adkim=r; aspf=R; psd=u; t=n", 0, "p: none", &[]);
}

#[test]
fn values_that_are_not_listed() {
    let default = ", the default, since";
    with(
        b"adkim=strict",
        3,
        &format!("adkim: r{default} \"strict\" is not one of r, s"),
        &[],
    );
    with(
        b"aspf=x",
        4,
        &format!("aspf: r{default} \"x\" is not one of r, s"),
        &[],
    );
    with(
        b"PSD=yes",
        5,
        &format!("psd: u{default} \"yes\" is not one of y, n, u"),
        &[],
    );
    with(
        b"t=1",
        6,
        &format!("t: n{default} \"1\" is not one of y, n"),
        &[],
    );
}

#[test]
fn records_that_are_not_usable() {
    let permerror = "rua has no valid entry, so the result is permerror";
    let none = "rua has a valid entry, so all three policies read as none";
    let usable = |text: &[u8], line: &str| {
        let said = lines(&Proved, text).expect("a record");
        assert!(said.contains(&line.to_string()), "{said:?}");
    };
    usable(
        b"v=DMARC1",
        &format!("usable: no, since p is absent; {permerror}"),
    );
    usable(
        b"v=DMARC1; rua=a:b",
        &format!("usable: no, since p is absent; {none}"),
    );
    usable(
        b"v=DMARC1; p=often; sp=x; np=y; rua=nobody",
        &format!("usable: no, since p is invalid and sp is invalid and np is invalid; {permerror}"),
    );
    usable(
        b"v=DMARC1; np=y",
        &format!("usable: no, since p is absent and np is invalid; {permerror}"),
    );
    for name in ["p", "sp", "np"] {
        usable(
            format!("v=DMARC1; {name}=often").as_bytes(),
            &format!("{name}: invalid, since \"often\" is not one of none, quarantine, reject"),
        );
    }
}

#[test]
fn entries_of_rua() {
    with(
        b"rua=mailto:a@b , c:d",
        7,
        "rua: \"mailto:a@b , c:d\", with a valid entry",
        &[],
    );
    let text = b"v=DMARC1; p=none; rua=nobody, , a:b!1";
    let said = lines(&Proved, text).expect("a record");
    let rua = [
        "rua: \"nobody, , a:b!1\", without a valid entry",
        "  entry 1, \"nobody\", is not valid: it has no `:`, as in mailto:a@example.com",
        "  entry 2, \"\", is not valid: it is empty",
        "  entry 3, \"a:b!1\", is not valid: `!` may not stand in it",
        "usable: yes",
    ];
    assert_eq!(said[7..], rua);
}

#[test]
fn parts_that_are_ignored() {
    let ignored = |part: &[u8], why: &str| {
        let shown = part.trim_ascii().escape_ascii().to_string();
        let line = format!("ignored: \"{shown}\", since {why}");
        with(part, 0, "p: none", &[&line]);
    };
    ignored(b"pct=50", "the tag is unknown");
    ignored(b"ruf=mailto:a@b", "the tag is unknown");
    ignored(b" sp ", "it has no `=`");
    ignored(b"=reject", "it has no name");
    ignored(b"s p=none", "its name has a blank, which is no letter");
    ignored(b"p2=none", "its name has `2`, which is no letter");
    ignored(b"sp=", "it has no value");
    ignored(
        b"sp=none\x80",
        "its value has octet 128, which is outside 32 to 126",
    );
    // Of empty parts nothing is said.
    with(b"; ;\t;", 0, "p: none", &[]);
    let tab = b"v=DMARC1; p=none; sp=no\tne";
    let said = lines(&Proved, tab).expect("a record");
    let line = "ignored: \"sp=no\\x09ne\", since its value has a tab, which is outside 32 to 126";
    assert_eq!(said.last().map(String::as_str), Some(line));
}

#[test]
fn texts_that_are_no_policy_record() {
    let first = |part: &str, why: &str| {
        let text = format!("{part}; p=none");
        let why = format!("its first part is \"{part}\", and not v=DMARC1: {why}");
        no_record(text.as_bytes(), &why);
    };
    first(" v=DMARC1", "no blank may stand before v");
    first("", "it does not begin with v");
    first("p=none", "it does not begin with v");
    first("v DMARC1", "no `=` comes after v");
    let exact = "its value is DMARC1 in capitals, and nothing else";
    first("v=dmarc1", exact);
    first("v=DMARC1 p=none", exact);
    no_record(
        b"v=DMARC1; p=none; SP=none; sp=none",
        "tag sp is written twice",
    );
    no_record(b"v=DMARC1; fo=1; FO=1", "tag fo is written twice");
    no_record(b"v=DMARC1; v=DMARC1", "tag v is written twice");
    no_record(
        b"",
        "its first part is \"\", and not v=DMARC1: it does not begin with v",
    );
}
