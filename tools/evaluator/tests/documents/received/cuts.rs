//! "in parts cut anywhere": "The rows, the refusal and its place are those of the uncut
//! text."

use super::{whole, with, Read};
use crate::day::day;
use evaluator::received::{Reader, Told};
use evaluator::refusal::Refusal;

/// A report of two records, the second of addresses of groups and no identifiers.
fn two_records() -> String {
    let text = day().text();
    let second = concat!(
        "<record><row><source_ip>2001:db8:0:0:0:0:0:1</source_ip><count>10</count>",
        "<policy_evaluated><disposition>none</disposition><dkim>fail</dkim><spf>fail</spf>",
        "</policy_evaluated></row><identifiers><header_from>a.b</header_from></identifiers>",
        "<auth_results></auth_results></record></feedback>"
    );
    text.replace("</feedback>", second)
}

/// Rows with the octets read when they were handed out, and the refusal, with which each
/// later part and end is answered too.
fn in_parts<'t>(parts: impl Iterator<Item = &'t [u8]>) -> (Vec<(usize, Read)>, Option<Refusal>) {
    let (mut reader, mut rows, mut read, mut refused) = (Reader::new(), Vec::new(), 0, None);
    for part in parts {
        let mut rest = part;
        loop {
            let step = reader.step(rest);
            rest = &rest[step.read..];
            read += step.read;
            match step.told {
                Told::Row(row) => rows.push((read, Read::of(row))),
                Told::More => break assert_eq!((rest, refused), (b"".as_slice(), None)),
                Told::Refused(own) => {
                    assert_eq!(refused.replace(own).unwrap_or(own), own);
                    break;
                }
            }
        }
    }
    let end = reader.end().err();
    assert_eq!(refused.or(end), end);
    (rows, end)
}

/// Where records end.
fn ends(text: &[u8]) -> Vec<usize> {
    let end = b"</record>";
    let windows = text.windows(end.len()).enumerate();
    let ends = windows.filter(|(_, own)| own == end);
    ends.map(|(at, _)| at + end.len()).collect()
}

/// Holds every cutting in two parts and that in single octets to the uncut text.
fn same_in_any_parts(text: &[u8]) {
    let (rows, refusal) = whole(text);
    let places = ends(text).into_iter().zip(rows).collect::<Vec<_>>();
    let expected = (places, refusal);
    for at in 0..=text.len() {
        let (first, second) = text.split_at(at);
        assert_eq!(
            in_parts([first, second].into_iter()),
            expected,
            "cut at {at}"
        );
    }
    for size in [1, 2, 3, 7, 100] {
        assert_eq!(in_parts(text.chunks(size)), expected, "in parts of {size}");
    }
    let empty = text.chunks(1).flat_map(|part| [b"".as_slice(), part, b""]);
    assert_eq!(in_parts(empty), expected);
}

#[test]
fn whole_reports() {
    let text = two_records();
    assert_eq!(whole(text.as_bytes()).0.len(), 2);
    same_in_any_parts(text.as_bytes());
    same_in_any_parts(day().text().as_bytes());
}

#[test]
fn refused_reports() {
    for text in [
        with("org_name", "a>b"),
        with("email", "&lt;&amp"),
        with("begin", "18446744073709551616"),
        with("end", "1"),
        with("count", "4294967296"),
        with("source_ip", "0:0:0:0:0:ffff:1:1"),
        with("header_from", &"a".repeat(64)),
        two_records() + "\n",
        two_records().replace(":1<", "::1<"),
        two_records()[..900].to_string(),
    ] {
        let (_, refusal) = whole(text.as_bytes());
        assert!(refusal.is_some(), "{text}");
        same_in_any_parts(text.as_bytes());
    }
}

/// "Each row is handed out when its record ends": before what is refused behind it.
#[test]
fn rows_before_a_refusal_stand() {
    let text = two_records().replace(":1<", "::1<");
    let (rows, refusal) = whole(text.as_bytes());
    assert_eq!(rows.len(), 1);
    assert_eq!(refusal.map(|own| own.number), Some(20));
    let one = with("count", "3").replace("</feedback>", "x");
    assert_eq!(whole(one.as_bytes()).0, rows);
}
