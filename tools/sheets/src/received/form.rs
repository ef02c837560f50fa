//! What can stand in the form of a report: by the element that is open, or else the texts
//! that can.

use crate::marked::shown;

const TEXT: &str =
    "1 to 4096 octets from 32 to 126, with &amp;, &lt; and &gt; for `&`, `<` and `>`";
const SECONDS: &str = "seconds, up to 18446744073709551615 and without a leading zero; the end is not before the begin";
const NAME: &str = "a domain in lower case, of 253 octets at the most";
const POLICY: &str = "none, quarantine or reject";
const MODE: &str = "r or s";

/// The elements that hold a value of their own, and what stands in each.
const ELEMENTS: &[(&str, &str)] = &[
    ("org_name", TEXT),
    ("email", TEXT),
    ("extra_contact_info", TEXT),
    ("report_id", "1 to 64 letters and digits"),
    ("begin", SECONDS),
    ("end", SECONDS),
    ("domain", NAME),
    ("p", POLICY),
    ("sp", POLICY),
    ("np", POLICY),
    ("adkim", MODE),
    ("aspf", MODE),
    ("testing", "y or n"),
    (
        "source_ip",
        "four numbers up to 255 with dots between, or eight lower-case hexadecimal groups with colons between that \
         are no mapped address; none has a leading zero",
    ),
    ("count", "a number from 1 to 4294967295, without a leading zero"),
    (
        "disposition",
        "none, quarantine, reject, or pass for none where a method is aligned",
    ),
    ("header_from", NAME),
    ("selector", NAME),
    ("result", "pass, fail or temperror"),
];

/// The name of the element in whose text a place is, by what stands before it.
pub fn element(before: &[u8]) -> Option<&'static str> {
    known(before).map(|(name, _)| *name)
}

/// What can stand at a place, by what stands before it and the texts that could be next.
pub fn expected(before: &[u8], next: &[Vec<u8>]) -> String {
    let quoted = |text: &Vec<u8>| format!("`{}`", shown(text));
    let texts: Vec<String> = next.iter().map(quoted).collect();
    match (known(before), &texts[..]) {
        (Some((name, words)), _) => format!("in <{name}> stands {words}"),
        (None, []) => "nothing can stand there".to_string(),
        (None, [one]) => format!("there can stand {one}"),
        (None, [others @ .., last]) => format!("there can stand {} or {last}", others.join(", ")),
    }
}

fn known(before: &[u8]) -> Option<&'static (&'static str, &'static str)> {
    let end = before.iter().rposition(|octet| *octet == b'>')?;
    let (front, text) = before.split_at(end);
    let begin = front.iter().rposition(|octet| *octet == b'<')?;
    let name = front.get(begin + 1..)?;
    let own = |(own, _): &&(&str, &str)| own.as_bytes() == name && !text.contains(&b'<');
    ELEMENTS.iter().find(own)
}
