//! What came of a message, as JSON.

use sheets::examples::MARKED;
use sheets::generate::{hostile, ordinary};
use sheets::handed::{Form, Handed};
use sheets::json::Json;
use sheets::message_json::message_json;

fn told(text: &str) -> String {
    let handed = Handed::read(Form::Description, "x.txt", text.as_bytes());
    message_json(&handed.expect("a message")).to_string()
}

#[test]
fn values() {
    let object = Json::Object(vec![
        ("a", Json::List(vec![Json::Null, Json::Number(7)])),
        ("b", Json::text("\"\\\n\u{1}\u{7f}/\u{fc}")),
        ("c", Json::List(Vec::new())),
        ("d", Json::Object(Vec::new())),
    ]);
    assert_eq!(
        object.to_string(),
        "{\"a\":[null,7],\"b\":\"\\\"\\\\\\u000a\\u0001\\u007f/\u{fc}\",\"c\":[],\"d\":{}}"
    );
}

#[test]
fn marked_sheet_1() {
    let row = MARKED.first().expect("a row");
    let expected = concat!(
        r#"{"result":"pass","policy":"reject","disposition":"none","domain":"example.com","#,
        r#""alignments":[{"kind":"dkim","outcome":"pass","domain":"mail.example.com","#,
        r#""alignment":"aligned","reason":"its organizational domain is the author's, "#,
        r#"example.com"}],"names":[{"name":"_dmarc.example.com","answer":"records"},"#,
        r#"{"name":"_dmarc.com","answer":"none"},"#,
        r#"{"name":"_dmarc.mail.example.com","answer":"none"}],"asked":3,"#,
        r#""reasons":["policy record: at example.com, the author domain's own","#,
        r#""author's organizational domain: example.com","#,
        r#""policy reject: p is reject, in the author domain's own record","#,
        r#""result pass: an identifier is aligned","#,
        r#""disposition none: always, where the result is pass"]}"#,
    );
    assert_eq!(told(&row.description()), expected);
}

#[test]
fn answers_of_every_kind_and_a_record_in_words() {
    let text = r#"author a.b.c exists supported
spf fail A.b.c
dkim temperror x.y.
answer _dmarc.a.b.c hex
answer _dmarc.b.c "v=dmarc1"
answer _dmarc.c error"#;
    let json = told(text);
    let names = r#""names":[{"name":"_dmarc.a.b.c","answer":"none"},{"name":"_dmarc.b.c","answer":"records"},{"name":"_dmarc.c","answer":"error"}],"asked":3,"#;
    assert!(json.contains(names), "{json}");
    assert!(json.contains(r#""domain":null,"alignments":[{"kind":"spf","outcome":"fail","domain":"a.b.c","alignment":"not judged","reason":"the policy record is not known"},{"kind":"dkim","outcome":"temperror","domain":"x.y","#), "{json}");
    let why = r#""a text at b.c is no policy record: its first part is \"v=dmarc1\", and not v=DMARC1: its value is DMARC1 in capitals, and nothing else""#;
    assert!(json.contains(why), "{json}");
    let missing = told("author a exists supported\n");
    assert!(missing.contains(r#""names":[{"name":"_dmarc.a","answer":"missing"}]"#));
    let unusable = told("author a exists supported\nanswer _dmarc.a \"v=DMARC1; p=x; z=1\"\n");
    let why = r#""policy record: at a, the author domain's own; not usable, since p is invalid; rua has no valid entry, so the result is permerror; p: invalid, since \"x\" is not one of none, quarantine, reject; ignored: \"z=1\", since the tag is unknown""#;
    assert!(unusable.contains(why), "{unusable}");
}

#[test]
fn refusals() {
    let text = "\nauthor b\u{fc}cher.example exists supported\n";
    let meaning = "the author domain breaks the rule: `b\\\\xc3\\\\xbccher.example` has octets \
                   outside ASCII; give the name in its A-label form, as xn--...";
    let expected = format!("{{\"refused\":1,\"at\":0,\"meaning\":\"{meaning}\",\"line\":2}}");
    assert_eq!(told(text), expected);
    let empty = message_json(&Handed::sheet_of("x", b"")).to_string();
    let expected = r#"{"refused":8,"at":0,"meaning":"the sheet is empty","line":null}"#;
    assert_eq!(empty, expected);
}

/// What is left after one value of JSON; nothing if there is none.
fn after_value(text: &[u8]) -> Option<&[u8]> {
    match text {
        [b'n', b'u', b'l', b'l', rest @ ..] => Some(rest),
        [b'"', ..] => after_text(text),
        [b'[', b']', rest @ ..] | [b'{', b'}', rest @ ..] => Some(rest),
        [b'[', ..] => after_members(text, b']', after_value),
        [b'{', ..] => after_members(text, b'}', |member| {
            after_value(after_text(member)?.strip_prefix(b":")?)
        }),
        [b'0'..=b'9', ..] => {
            let digits = text
                .iter()
                .take_while(|octet| octet.is_ascii_digit())
                .count();
            text.get(digits..)
        }
        _ => None,
    }
}

fn after_members(text: &[u8], end: u8, after: impl Fn(&[u8]) -> Option<&[u8]>) -> Option<&[u8]> {
    let mut rest = text.get(1..)?;
    loop {
        rest = match after(rest)?.split_first()? {
            (b',', next) => next,
            (own, left) if *own == end => return Some(left),
            _ => return None,
        };
    }
}

fn after_text(text: &[u8]) -> Option<&[u8]> {
    let mut rest = text.strip_prefix(b"\"")?;
    loop {
        rest = match rest {
            [b'"', left @ ..] => return Some(left),
            [b'\\', b'"' | b'\\', left @ ..] => left,
            [b'\\', b'u', hex @ ..] => {
                let (digits, left) = hex.split_at_checked(4)?;
                digits.iter().all(u8::is_ascii_hexdigit).then_some(left)?
            }
            [32..=126, left @ ..] if rest[0] != b'\\' => left,
            _ => return None,
        };
    }
}

/// Each is one object on one line, in ASCII, whatever stands on the sheet.
#[test]
fn every_object_is_json() {
    for index in 0..400 {
        for sheet in [ordinary(23, index), hostile(23, index)] {
            let handed = Handed::sheet_of("x", &sheet);
            let json = message_json(&handed).to_string();
            assert_eq!(after_value(json.as_bytes()), Some(b"".as_slice()), "{json}");
        }
    }
    assert_eq!(after_value(b"[1,]"), None);
    assert_eq!(after_value(b"{\"a\":}"), None);
    assert_eq!(after_value(b"\"\\x\""), None);
}
