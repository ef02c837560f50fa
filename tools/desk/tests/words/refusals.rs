//! Refusals: the plain line on standard output, its meaning on standard error.

use desk::script::Folder;

/// A description is refused with this line, and this is said after its file's
/// name.
fn refused(description: &str, line: &str, said: &str) {
    let folder = Folder::with("x.txt", description);
    for words in [
        ["x.txt"].as_slice(),
        &["--status", "x.txt"],
        &["--next", "x.txt"],
    ] {
        let ended = folder.dmarc(words);
        assert_eq!(ended.printed, format!("{line}\n"), "{words:?}");
        assert_eq!(ended.said, format!("dmarc: x.txt: {said}\n"), "{words:?}");
        assert_eq!(ended.status, 3, "{words:?}");
    }
    let explained = folder.dmarc(&["--explain", "x.txt"]);
    assert!(explained.printed.starts_with(&format!("{line}\n-- why\n")));
    assert_eq!(explained.status, 3);
}

const AUTHOR: &str = "author b exists supported\n";

#[test]
fn domains() {
    let address = "`joe@example.com` is an address; give its domain alone: example.com";
    refused(
        "\nauthor joe@example.com exists supported",
        "refused 1 at 0",
        &format!("line 2: refused 1: the author domain breaks the rule: {address}"),
    );
    refused(
        &format!("{AUTHOR}spf fail b\n\ndkim pass joe@example.com\n"),
        "refused 2 at 1",
        &format!("line 4: refused 2: the identifier's domain breaks the rule: {address}"),
    );
    refused(
        "author b\u{fc}cher.example exists supported",
        "refused 1 at 0",
        "line 1: refused 1: the author domain breaks the rule: `b\\xc3\\xbccher.example` \
         has octets outside ASCII; give the name in its A-label form, as xn--...",
    );
}

#[test]
fn numbers_and_too_many_identifiers() {
    refused(
        "author b existence=7 support=1",
        "refused 3 at 255",
        "line 1: refused 3: existence 7 is not listed: 0 no, 1 yes, 2 not known",
    );
    refused(
        &format!("{AUTHOR}spf pass b\nspf pass c\n"),
        "refused 4 at 1",
        "line 3: refused 4: a second SPF identifier, and a message has one at the most",
    );
    refused(
        &format!("{AUTHOR}{}", "dkim pass b\n".repeat(17)),
        "refused 4 at 16",
        "line 18: refused 4: the 17th identifier, and a message has 16 at the most; \
         leave out some whose outcome is fail",
    );
}

#[test]
fn answers() {
    let end = "hand it in as an error, never as none";
    refused(
        &format!(
            "{AUTHOR}answer other none\nanswer _dmarc.b \"{}\"\n",
            "x".repeat(5000)
        ),
        "refused 6 at 0",
        &format!(
            "line 3: refused 6: the answer for _dmarc.b has 5024 octets, 4 for each record and \
             1 for each string among them, and 4,096 at the most; {end}"
        ),
    );
    refused(
        &format!("{AUTHOR}{}", "answer _dmarc.b \"x\"\n".repeat(17)),
        "refused 6 at 0",
        &format!(
            "line 2: refused 6: the answer for _dmarc.b has 17 records, and 16 at the most; {end}"
        ),
    );
    refused(
        &format!("{AUTHOR}answer _dmarc.b hex 00\n"),
        "refused 6 at 0",
        &format!("line 2: refused 6: the answer for _dmarc.b cannot be read as TXT records; {end}"),
    );
}

#[test]
fn as_json() {
    let folder = Folder::with("x.txt", format!("{AUTHOR}spf pass b\nspf pass c\n"));
    let ended = folder.dmarc(&["--json", "x.txt"]);
    let meaning = "a second SPF identifier, and a message has one at the most";
    let expected = format!("{{\"refused\":4,\"at\":1,\"meaning\":\"{meaning}\",\"line\":3}}\n");
    assert_eq!((ended.status, ended.printed), (3, expected));
}

#[test]
fn of_a_sheet_the_octet_is_said() {
    let folder = Folder::with("x.sheet", b"AU\0\x03\x01\x01bID\0\x02\x00\x00");
    let ended = folder.dmarc(&["x.sheet"]);
    assert_eq!(ended.printed, "refused 2 at 0\n");
    let said = "dmarc: x.sheet: octet 7: refused 2: \
                the identifier's domain breaks the rule: it is empty\n";
    assert_eq!((ended.status, ended.said.as_str()), (3, said));
    let json = folder.dmarc(&["--json", "x.sheet"]).printed;
    assert!(json.ends_with("\"line\":null}\n"), "{json}");
}
