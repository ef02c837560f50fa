//! Reading 161: the subject of the mail with a report (RFC 9990, 3.5.2).

use crate::case::refusal;
use evaluator::refusal::Refusal;
use evaluator::report::{subject, Subject};

const SAMPLE: Subject = Subject {
    receiver: b"gate.example",
    policy_domain: b"example.com",
    id: b"r7",
};

/// The subject as text, from lent memory with octets to spare.
fn written(parts: &Subject) -> Result<String, Refusal> {
    let mut lent = [170; 700];
    let length = subject(parts, &mut lent)?;
    assert!(lent[length..].iter().all(|octet| *octet == 170));
    Ok(String::from_utf8_lossy(&lent[..length]).into_owned())
}

#[test]
fn the_example_of_reading_161() {
    let expected = "Report Domain: example.com Submitter: gate.example Report-ID: <r7>";
    assert_eq!(expected.len(), 66);
    assert_eq!(written(&SAMPLE), Ok(expected.to_string()));
}

#[test]
fn domains_in_lower_case_and_without_a_final_dot() {
    let parts = Subject {
        receiver: b"GATE.Example.",
        policy_domain: b"Example.COM.",
        id: b"Ab9Z",
    };
    let expected = "Report Domain: example.com Submitter: gate.example Report-ID: <Ab9Z>";
    assert_eq!(written(&parts), Ok(expected.to_string()));
}

#[test]
fn the_longest_subject() {
    let label = "x".repeat(63);
    let longest = format!("{label}.{label}.{label}.{}", &label[2..]);
    assert_eq!(longest.len(), 253);
    let id = "Z".repeat(64);
    let parts = Subject {
        receiver: longest.as_bytes(),
        policy_domain: longest.as_bytes(),
        id: id.as_bytes(),
    };
    let expected = format!("Report Domain: {longest} Submitter: {longest} Report-ID: <{id}>");
    assert_eq!(expected.len(), 611);
    assert_eq!(written(&parts), Ok(expected));
}

/// Parts that are refused 11, however much memory is lent.
fn refused(parts: &Subject) {
    for octets in [0, 3, 700] {
        let mut lent = vec![170; octets];
        assert_eq!(subject(parts, &mut lent), Err(refusal(11, 0)), "{parts:?}");
        assert!(lent.iter().all(|octet| *octet == 170));
    }
}

#[test]
fn refused_11_before_10() {
    let domains: [&[u8]; 7] = [
        b"",
        b".",
        b"a..b",
        b"gate.example..",
        b"a b",
        b"-.*",
        b"\xe9",
    ];
    for domain in domains {
        refused(&Subject {
            receiver: domain,
            ..SAMPLE
        });
        refused(&Subject {
            policy_domain: domain,
            ..SAMPLE
        });
    }
    let longer = [b'a'; 65];
    let ids: [&[u8]; 6] = [b"", b"r-7", b"r7.", b"<r7>", b"\xe9", &longer];
    for id in ids {
        refused(&Subject { id, ..SAMPLE });
    }
}

#[test]
fn refused_10_with_the_octets_needed() {
    for octets in [0, 1, 65] {
        let mut lent = vec![170; octets];
        assert_eq!(subject(&SAMPLE, &mut lent), Err(refusal(10, 66)));
        assert!(lent.iter().all(|octet| *octet == 170));
    }
    assert_eq!(subject(&SAMPLE, &mut [0; 66]), Ok(66));
}
