//! Readings 94 to 100: the file name and the field.

use crate::case::{case, refusal, words};
use crate::octets::E;
use evaluator::message::Kind::{self, Dkim, Spf};
use evaluator::refusal::Refusal;
use evaluator::report::{field_text, file_name, identity_alignment, FileName};
use evaluator::verdict::Alignment::{self, Aligned, NotAligned, Unknown};

const SAMPLE: FileName = FileName {
    receiver: b"gate.example",
    policy_domain: b"example.com",
    begin: 1_700_000_000,
    end: 1_700_086_399,
    id: Some(b"r7"),
};

/// The file name as text, from lent memory with octets to spare.
fn named(parts: &FileName) -> Result<String, Refusal> {
    let mut lent = [170; 700];
    let length = file_name(parts, &mut lent)?;
    assert!(lent[length..].iter().all(|octet| *octet == 170));
    Ok(String::from_utf8_lossy(&lent[..length]).into_owned())
}

#[test]
fn the_example_of_document_01() {
    let expected = "gate.example!example.com!1700000000!1700086399!r7.xml";
    assert_eq!(expected.len(), 53);
    assert_eq!(named(&SAMPLE), Ok(expected.to_string()));
}

#[test]
fn point_94_an_absent_id_differs_from_an_empty_one() {
    let absent = FileName { id: None, ..SAMPLE };
    let expected = "gate.example!example.com!1700000000!1700086399.xml";
    assert_eq!(named(&absent), Ok(expected.to_string()));
    let empty = FileName {
        id: Some(b""),
        ..SAMPLE
    };
    assert_eq!(named(&empty), Err(refusal(11, 0)));
}

#[test]
fn point_95_times() {
    let at = |begin, end| {
        named(&FileName {
            begin,
            end,
            id: None,
            ..SAMPLE
        })
    };
    assert_eq!(at(0, 0), Ok("gate.example!example.com!0!0.xml".to_string()));
    let most = "gate.example!example.com!18446744073709551615!18446744073709551615.xml";
    assert_eq!(at(u64::MAX, u64::MAX), Ok(most.to_string()));
    assert_eq!(at(1, 0), Err(refusal(11, 0)));
    assert_eq!(at(10, 9), Err(refusal(11, 0)));
    assert_eq!(
        at(9, 10),
        Ok("gate.example!example.com!9!10.xml".to_string())
    );
}

#[test]
fn point_96_case_of_id_and_domains() {
    let parts = FileName {
        receiver: b"GATE.Example",
        policy_domain: b"Example.COM",
        begin: 7,
        end: 8,
        id: Some(b"Ab9Z"),
    };
    let expected = "gate.example!example.com!7!8!Ab9Z.xml";
    assert_eq!(named(&parts), Ok(expected.to_string()));
}

#[test]
fn point_97_11_has_place_0_and_comes_before_10() {
    let refused = |parts: FileName| {
        let mut lent = [170; 3];
        assert_eq!(file_name(&parts, &mut lent), Err(refusal(11, 0)));
        assert_eq!(lent, [170; 3]);
    };
    refused(FileName {
        receiver: b"",
        ..SAMPLE
    });
    refused(FileName {
        receiver: b"a..b",
        ..SAMPLE
    });
    refused(FileName {
        policy_domain: b"a.b..",
        ..SAMPLE
    });
    refused(FileName {
        id: Some(b"r-7"),
        ..SAMPLE
    });
    refused(FileName {
        id: Some("é".as_bytes()),
        ..SAMPLE
    });
    refused(FileName {
        id: Some(&[b'a'; 65]),
        ..SAMPLE
    });
    assert!(named(&FileName {
        id: Some(&[b'a'; 64]),
        ..SAMPLE
    })
    .is_ok());
    // 10 with the full length; nothing written.
    let mut lent = [170; 52];
    assert_eq!(file_name(&SAMPLE, &mut lent), Err(refusal(10, 53)));
    assert_eq!(lent, [170; 52]);
    assert_eq!(file_name(&SAMPLE, &mut [0; 53]), Ok(53));
    assert_eq!(file_name(&SAMPLE, &mut []), Err(refusal(10, 53)));
}

fn field(judged: &[(Kind, Alignment)]) -> String {
    String::from_utf8(identity_alignment(judged)).expect("a field in ASCII")
}

#[test]
fn point_98_unknown_alignments_in_the_field() {
    let case = case("example.com")
        .text("example.com", "v=DMARC1; p=reject")
        .error("org")
        .spf("example.com")
        .dkim("other.org");
    let verdict = case.verdict();
    assert_eq!(words(&verdict.alignments), ["aligned", "unknown"]);
    let message = case.message().unwrap();
    let text = field_text(&message, &verdict);
    assert_eq!(text, Ok(b"Identity-Alignment: dkim\r\n".to_vec()));
}

#[test]
fn point_99_none() {
    assert_eq!(field(&[(Spf, Aligned)]), "Identity-Alignment: none\r\n");
    assert_eq!(field(&[(Dkim, Aligned)]), "Identity-Alignment: none\r\n");
    let two = [(Dkim, NotAligned), (Spf, Aligned), (Dkim, Aligned)];
    assert_eq!(field(&two), "Identity-Alignment: none\r\n");
    let case = case("example.com")
        .text("example.com", E)
        .spf("example.com");
    let message = case.message().unwrap();
    let text = field_text(&message, &case.verdict());
    assert_eq!(text, Ok(b"Identity-Alignment: none\r\n".to_vec()));
}

#[test]
fn point_100_octets() {
    let table = [
        (vec![(Dkim, Aligned)], "none", 26),
        (vec![(Dkim, NotAligned)], "dkim", 26),
        (vec![(Spf, NotAligned)], "spf", 25),
        (vec![(Spf, NotAligned), (Dkim, Unknown)], "dkim, spf", 31),
        (vec![(Dkim, NotAligned), (Spf, NotAligned)], "dkim, spf", 31),
        (vec![(Dkim, Aligned), (Spf, NotAligned)], "spf", 25),
    ];
    for (judged, methods, length) in table {
        let text = field(&judged);
        assert_eq!(text, format!("Identity-Alignment: {methods}\r\n"));
        assert_eq!(text.len(), length);
    }
}
