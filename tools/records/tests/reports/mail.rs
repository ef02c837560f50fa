//! File names and subjects of generated days, held to RFC 9990's grammar (3.5.1 and
//! 3.5.2) by readers of their own.

use crate::days::generated_day;
use records::report::written;

/// What is left of a text; each step takes a part from its front, if it is there.
struct Rest<'a>(&'a str);

impl<'a> Rest<'a> {
    fn literal(&mut self, word: &str) -> Option<()> {
        self.0 = self.0.strip_prefix(word)?;
        Some(())
    }

    /// One or more of such characters.
    fn some(&mut self, such: impl Fn(char) -> bool) -> Option<&'a str> {
        let end = self.0.find(|own| !such(own)).unwrap_or(self.0.len());
        let (front, rest) = self.0.split_at(end);
        self.0 = rest;
        (!front.is_empty()).then_some(front)
    }

    /// `1*FWS`; a single blank here.
    fn blank(&mut self) -> Option<()> {
        self.literal(" ")
    }

    /// A domain of document 01, which allows `_` too, in lower case.
    fn domain(&mut self) -> Option<&'a str> {
        let of_label =
            |own: char| own.is_ascii_lowercase() || own.is_ascii_digit() || "-_".contains(own);
        let domain = self.some(|own| own == '.' || of_label(own))?;
        let good = |label: &str| !label.is_empty() && label.len() < 64;
        (domain.len() < 254 && domain.split('.').all(good)).then_some(domain)
    }

    /// `1*DIGIT`, without a zero before others.
    fn digits(&mut self) -> Option<&'a str> {
        let digits = self.some(|own| own.is_ascii_digit())?;
        (digits == "0" || !digits.starts_with('0')).then_some(digits)
    }

    fn alphanumeric(&mut self) -> Option<&'a str> {
        self.some(|own| own.is_ascii_alphanumeric())
    }

    fn end(&self) -> Option<()> {
        self.0.is_empty().then_some(())
    }
}

/// Receiver, policy domain, begin, end and id of a file name.
fn file_name(text: &str) -> Option<[&str; 5]> {
    let mut rest = Rest(text);
    let receiver = rest.domain()?;
    rest.literal("!")?;
    let domain = rest.domain()?;
    rest.literal("!")?;
    let begin = rest.digits()?;
    rest.literal("!")?;
    let end = rest.digits()?;
    rest.literal("!")?;
    let id = rest.alphanumeric()?;
    rest.literal(".xml")?;
    rest.end()?;
    Some([receiver, domain, begin, end, id])
}

/// Policy domain, receiver and Report-ID of a subject. Letters and digits are
/// dot-atom-text.
fn subject(text: &str) -> Option<[&str; 3]> {
    let mut rest = Rest(text);
    rest.literal("Report")?;
    rest.blank()?;
    rest.literal("Domain:")?;
    rest.blank()?;
    let domain = rest.domain()?;
    rest.blank()?;
    rest.literal("Submitter:")?;
    rest.blank()?;
    let receiver = rest.domain()?;
    rest.blank()?;
    rest.literal("Report-ID:")?;
    rest.blank()?;
    rest.literal("<")?;
    let id = rest.alphanumeric()?;
    rest.literal(">")?;
    rest.end()?;
    Some([domain, receiver, id])
}

#[test]
fn what_is_no_file_name_and_no_subject() {
    let name = "a.b!c!1!2!d.xml";
    assert_eq!(file_name(name), Some(["a.b", "c", "1", "2", "d"]));
    for other in [
        "a..b!c!1!2!d.xml",
        "A!c!1!2!d.xml",
        "a!c!01!2!d.xml",
        "a!c!1!!d.xml",
        "a!c!1!2!.xml",
        "a!c!1!2!d-e.xml",
        "a!c!1!2!d.xml\n",
        "a!c!1!2!d.txt",
    ] {
        assert_eq!(file_name(other), None, "{other}");
    }
    let text = "Report Domain: a Submitter: b.c Report-ID: <d>";
    assert_eq!(subject(text), Some(["a", "b.c", "d"]));
    for (part, other) in [
        ("Report ", "report "),
        (": b", ":  b"),
        ("<d>", "d"),
        ("<d>", "<>"),
        ("<d>", "<d> "),
        ("b.c", "B.c"),
    ] {
        assert_eq!(subject(&text.replacen(part, other, 1)), None, "{other}");
    }
}

/// Any text in lower case, without a final dot.
fn named(text: &[u8]) -> String {
    let text = String::from_utf8_lossy(text).to_lowercase();
    text.strip_suffix('.').unwrap_or(&text).to_string()
}

#[test]
fn of_generated_days() {
    for index in 0..200 {
        let day = generated_day(index);
        let written = written(&day).expect("a whole day").expect("a report");
        let text = |octets| String::from_utf8(octets).expect("plain text");
        let (name, line) = (text(written.name), text(written.subject));
        let whole = day.complete().expect("a whole day");
        let (receiver, domain) = (named(&whole.receiver.value), named(&whole.domain.value));
        let (begin, end) = (whole.begin.value.to_string(), whole.end.value.to_string());
        let id = String::from_utf8_lossy(&whole.id.value);
        assert_eq!(
            file_name(&name),
            Some([&*receiver, &domain, &begin, &end, &id])
        );
        assert_eq!(subject(&line), Some([&*domain, &receiver, &id]));
    }
}
