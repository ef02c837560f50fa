//! The answers of an address check in a file, and what is said beside its outcome.

use crate::octets::tx;
use evaluator::txt::Status;
use sheets::address::{notes, AddressHanded};

/// A check of example.com and an address at example.net, all answers of which are
/// these lines.
fn read(lines: &str) -> Result<AddressHanded, String> {
    let handed = AddressHanded {
        policy: b"example.com".to_vec(),
        entry: b"mailto:a@example.net".to_vec(),
        complete: true,
        ..AddressHanded::default()
    };
    handed.with_file("x.txt", lines.as_bytes())
}

fn mistake(lines: &str, said: &str) {
    assert_eq!(read(lines), Err(format!("x.txt: {said}")), "{lines}");
}

#[test]
fn lines_as_a_description_has_them() {
    let lines = "\u{feff}# all names
answer _dmarc.Example.com. none   # its own
ANSWER _dmarc.com error\r
_dmarc.example.net. 300 IN TXT \"v=DMARC1; \" \"p=none\"

answer _dmarc.net hex 5458
answer _dmarc.example.net \"b\"
";
    let handed = read(lines).expect("answers");
    let given = handed.answers.iter();
    let given: Vec<_> = given
        .map(|own| (own.line, own.name.as_slice(), own.status, own.bytes.clone()))
        .collect();
    let two = [tx(&[b"v=DMARC1; ", b"p=none"]), tx(&[b"b"])].concat();
    let expected: [(usize, &[u8], Status, Vec<u8>); 4] = [
        (2, b"_dmarc.Example.com.", Status::None, Vec::new()),
        (3, b"_dmarc.com", Status::Error, Vec::new()),
        (4, b"_dmarc.example.net.", Status::Records, two),
        (6, b"_dmarc.net", Status::Records, b"TX".to_vec()),
    ];
    assert_eq!(given, expected);
    assert_eq!(read("").map(|handed| handed.answers.len()), Ok(0));
}

/// There is no sheet, and so none of its limits.
#[test]
fn long_answers() {
    let text = "x".repeat(60_000);
    let lines = format!("answer a \"{text}\"\nanswer a \"{text}\"\nanswer b \"{text}\"\n");
    let handed = read(&lines).expect("answers");
    let octets = handed.answers.iter().map(|own| own.bytes.len());
    let one = 60_000 + 236 + 4;
    assert_eq!(octets.collect::<Vec<_>>(), [2 * one, one]);
}

#[test]
fn mistakes() {
    let items = "a line here begins with answer, or is one of dig's answer section";
    for item in [
        "author example.com exists supported",
        "spf pass b",
        "sheet hex 00",
    ] {
        let head = item.split(' ').next().unwrap_or_default();
        mistake(
            &format!("\n{item}"),
            &format!("line 2: `{head}` is no answer; {items}"),
        );
    }
    mistake(
        "answer a none\nanswer A. none",
        "line 2: the name is answered already",
    );
    mistake(
        "answer a..b none",
        "line 1: the name breaks the domain rule: `a..b` has a dot too many",
    );
    mistake(
        "\"v=DMARC1\"",
        "line 1: a line does not begin with a quoted text; put `answer` and the asked name before it",
    );
    mistake(
        "_dmarc.a. 300 IN CNAME b.",
        "line 1: of dig's lines only those of TXT are read; give the asked name itself with the \
         strings it led to: answer NAME \"...\"",
    );
    mistake(
        "answer a maybe",
        "line 1: an answer is none, error, quoted texts, or hex and its digits",
    );
    mistake(
        &"#".repeat(1_048_577),
        "it is over 1,048,576 octets, which no check needs",
    );
    let wide = AddressHanded::default().with_file("x.txt", b"\xff\xfea\0");
    let said = "x.txt: it is written in UTF-16; save it as UTF-8 or ASCII";
    assert_eq!(wide, Err(said.to_string()));
}

#[test]
fn what_is_said_beside_an_outcome() {
    let lines = "answer _dmarc.example.com none
answer com none
answer _dmarc.org none
";
    let said = notes(&read(lines).expect("answers"));
    let expected = [
        "no answer in x.txt for _dmarc.com: read as a failed lookup",
        "never asked: com (line 2); the name asked is _dmarc.com",
        "never asked: _dmarc.org (line 3)",
    ];
    assert_eq!(said, expected);
    let no_file = AddressHanded {
        answers: Vec::new(),
        file: None,
        ..read(lines).expect("answers")
    };
    let said = "no answer for _dmarc.example.com: read as a failed lookup";
    assert_eq!(notes(&no_file), [said]);
    // Before the outcome there is nothing to say.
    let open = AddressHanded {
        complete: false,
        ..no_file
    };
    assert_eq!(notes(&open), [""; 0]);
}

#[test]
fn what_is_said_of_a_refusal() {
    let seventeen = "answer _dmarc.com \"x\"\n".repeat(17);
    let refused = read(&format!("answer _dmarc.example.com none\n{seventeen}"));
    let said = "x.txt: line 2: refused 6: the answer for _dmarc.com has 17 records, and 16 at the \
                most; hand it in as an error, never as none";
    assert_eq!(notes(&refused.expect("answers")), [said]);
    let bad = AddressHanded {
        policy: b"a..b".to_vec(),
        ..read("").expect("answers")
    };
    let said = "refused 11: the policy domain is bad: `a..b` has a dot too many";
    assert_eq!(notes(&bad), [said]);
}
