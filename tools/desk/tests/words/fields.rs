//! An Identity-Alignment field: the methods that it names, or where it is wrong.

use desk::script::{Ended, Folder};

const SPF: &str = "methods: spf
dkim: not named, so it was not tried, or it authenticated an aligned identity
spf: it failed to authenticate an aligned identity
";

fn field(words: &[&str]) -> Ended {
    let words: Vec<&str> = ["--field"].iter().chain(words).copied().collect();
    Folder::new().dmarc(&words)
}

fn from_input(words: &[&str], input: &[u8]) -> Ended {
    let words: Vec<&str> = ["--field"].iter().chain(words).copied().collect();
    Folder::new().dmarc_reading(&words, input)
}

#[test]
fn the_methods_are_named() {
    let text = "identity-ALIGNMENT: (a (nested) comment) sPf";
    let ended = field(&[text]);
    assert_eq!((ended.status, ended.printed.as_str()), (0, SPF));
    assert_eq!(ended.said, "");
    let octets = format!("{text}\r\n");
    assert_eq!(from_input(&["-"], octets.as_bytes()), ended);
    let json = field(&["--json", text]);
    assert_eq!((json.status, json.said.as_str()), (0, ""));
    assert_eq!(json.printed, "{\"methods\":[\"spf\"]}\n");
}

#[test]
fn a_refusal_is_printed_alone_and_its_place_is_marked() {
    let ended = field(&["Identity-Alignment: dkim; spf"]);
    assert_eq!(
        (ended.status, ended.printed.as_str()),
        (3, "refused 24 at 24\n")
    );
    let said: Vec<&str> = ended.said.lines().collect();
    assert_eq!(said[1], "Identity-Alignment: dkim; spf\\r\\n");
    assert_eq!(said[2].find('^'), Some(24));
    assert!(said[3].starts_with("there could stand "), "{}", said[3]);
    let json = field(&["Identity-Alignment: dkim, dkim", "--json"]);
    assert_eq!((json.status, json.said.as_str()), (3, ""));
    let begin = "{\"refused\":26,\"at\":26,\"meaning\":\"a method is named again\",";
    assert!(json.printed.starts_with(begin), "{}", json.printed);
}

#[test]
fn standard_input_is_read_as_it_is() {
    let ended = from_input(&["-"], b"Identity-Alignment: none\n");
    assert_eq!(
        (ended.status, ended.printed.as_str()),
        (3, "refused 24 at 24\n")
    );
    assert!(ended.said.contains("LF"), "{}", ended.said);
}

#[test]
fn wrong_words() {
    for words in [&[][..], &["--json"], &["a", "b"]] {
        let ended = field(words);
        assert_eq!((ended.status, ended.printed.as_str()), (2, ""), "{words:?}");
    }
}
