//! Reports read by the interface, in parts cut anywhere. What must come out is
//! written by hand from document 02.

use std::io::{self, Read};

use waslidhaj::{
    mapped, raw, Disposition, Fed, Kind, Outcome, ReadError, Reader, ReceivedIdentifier,
};
use waslidhaj::{ReceivedRow, ReceivedRows, Refusal};

const HEAD: &str = concat!(
    "<?xml version=\"1.0\" encoding=\"UTF-8\"?>",
    "<feedback xmlns=\"urn:ietf:params:xml:ns:dmarc-2.0\">",
    "<report_metadata><org_name>Gate &amp; Sons</org_name><email>dmarc@gate.example</email>",
    "<report_id>r7</report_id>",
    "<date_range><begin>1700000000</begin><end>1700086399</end></date_range></report_metadata>",
    "<policy_published><domain>example.com</domain><p>reject</p>",
    "<adkim>r</adkim><aspf>s</aspf><testing>n</testing></policy_published>",
);
const PASSED: &str = concat!(
    "<record><row><source_ip>192.0.2.1</source_ip><count>3</count>",
    "<policy_evaluated><disposition>pass</disposition><dkim>pass</dkim><spf>fail</spf>",
    "</policy_evaluated></row>",
    "<identifiers><header_from>news.example.com</header_from></identifiers>",
    "<auth_results><dkim><domain>mail.example.com</domain><selector>s1</selector>",
    "<result>pass</result></dkim>",
    "<spf><domain>bounce.example.net</domain><result>temperror</result></spf>",
    "</auth_results></record>",
);
const REJECTED: &str = concat!(
    "<record><row><source_ip>2001:db8:0:0:0:0:0:1f</source_ip><count>4294967295</count>",
    "<policy_evaluated><disposition>reject</disposition><dkim>fail</dkim><spf>fail</spf>",
    "</policy_evaluated></row>",
    "<identifiers><header_from>example.com</header_from></identifiers>",
    "<auth_results></auth_results></record>",
);
const END: &str = "</feedback>";

fn whole() -> String {
    [HEAD, PASSED, REJECTED, END].concat()
}

fn passed() -> ReceivedRow {
    let identifier = |kind, outcome, domain: &str, selector: &str| ReceivedIdentifier {
        kind,
        outcome,
        domain: domain.to_string(),
        selector: selector.to_string(),
    };
    ReceivedRow {
        source: mapped([192, 0, 2, 1].into()),
        count: 3,
        disposition: Disposition::None,
        dkim: true,
        spf: false,
        author: "news.example.com".to_string(),
        identifiers: vec![
            identifier(Kind::Dkim, Outcome::Pass, "mail.example.com", "s1"),
            identifier(Kind::Spf, Outcome::TemporaryError, "bounce.example.net", ""),
        ],
    }
}

fn rejected() -> ReceivedRow {
    let source = [0x2001, 0xdb8, 0, 0, 0, 0, 0, 0x1f];
    ReceivedRow {
        source: mapped(std::net::Ipv6Addr::from(source).into()),
        count: u32::MAX,
        disposition: Disposition::Reject,
        dkim: false,
        spf: false,
        author: "example.com".to_string(),
        identifiers: vec![],
    }
}

type Came = (Vec<ReceivedRow>, Result<(), Refusal>);

/// Reads one part, and adds its rows.
fn read(reader: &mut Reader, part: &[u8], rows: &mut Vec<ReceivedRow>) -> Result<(), Refusal> {
    let mut rest = part;
    while let Fed::Row { row, used } = reader.read(rest)? {
        rows.push(row);
        rest = &rest[used..];
    }
    Ok(())
}

/// What comes of a text in parts and its declared end.
fn came<'a>(parts: impl IntoIterator<Item = &'a [u8]>) -> Came {
    let (mut reader, mut rows) = (Reader::new(), Vec::new());
    for part in parts {
        if let Err(refusal) = read(&mut reader, part, &mut rows) {
            // Every later part and the end get the same refusal.
            assert_eq!(reader.read(b"<"), Err(refusal));
            assert_eq!(reader.end(), Err(refusal));
            return (rows, Err(refusal));
        }
    }
    let ended = reader.end();
    (rows, ended)
}

/// Read whole, in two parts cut anywhere, and octet by octet.
fn reads(text: &str, expected: &Came) {
    let text = text.as_bytes();
    assert_eq!(came([text]), *expected);
    assert_eq!(came(text.chunks(1)), *expected);
    for cut in 0..=text.len() {
        let (first, second) = text.split_at(cut);
        assert_eq!(came([first, b"", second]), *expected, "cut at {cut}");
    }
}

#[test]
fn the_rows_however_it_is_cut() {
    reads(&whole(), &(vec![passed(), rejected()], Ok(())));
}

/// A text with this in place of that is refused there, with the rows before it.
fn refused(from: &str, to: &str, number: u8, on: usize, rows: usize) {
    let text = whole();
    assert_eq!(text.matches(from).count(), 1, "{from}");
    let place = text.find(from).expect(from) + on;
    let rows = [passed(), rejected()][..rows].to_vec();
    let refusal = Refusal { number, place };
    reads(&text.replace(from, to), &(rows, Err(refusal)));
}

#[test]
fn text_outside_the_form() {
    refused("<feedback", "\n<feedback", 20, 0, 0);
    refused("news.example", "News.example", 20, 0, 0);
    refused("<count>3<", "<count>03<", 20, 7, 0);
    refused("192.0.2.1", "192.0.2.256", 20, 10, 0);
    refused("<disposition>reject", "<disposition>rejoct", 20, 16, 1);
    refused("</record></feedback>", "</record> </feedback>", 20, 9, 2);
    refused("</feedback>", "</feedback>\n", 20, 11, 2);
    // Without a method aligned the disposition is none or another, never pass.
    refused(
        "<dkim>pass</dkim><spf>fail",
        "<dkim>fail</dkim><spf>fail",
        20,
        22,
        0,
    );
}

#[test]
fn times() {
    // An end before the begin, at the `<` after it.
    refused("<end>1700086399", "<end>1699999999", 20, 15, 0);
    refused(
        "<begin>1700000000",
        "<begin>18446744073709551616",
        21,
        26,
        0,
    );
    let longest = whole().replace("<end>1700086399", "<end>18446744073709551615");
    reads(&longest, &(vec![passed(), rejected()], Ok(())));
}

#[test]
fn counts_over_their_width() {
    refused("<count>4294967295", "<count>4294967296", 21, 16, 1);
    refused("<count>3<", "<count>30000000000<", 21, 17, 0);
}

/// Each beginning of a report ends early, at its length.
#[test]
fn reports_that_end_early() {
    let text = whole();
    let rows = [passed(), rejected()];
    let ends = [HEAD.len() + PASSED.len(), text.len() - END.len()];
    for place in 0..text.len() {
        let count = ends.iter().filter(|end| **end <= place).count();
        let early = Err(Refusal { number: 22, place });
        assert_eq!(
            came([&text.as_bytes()[..place]]),
            (rows[..count].to_vec(), early)
        );
    }
}

/// A source of a few octets at a time, which is interrupted in between.
struct Slow<'a> {
    left: &'a [u8],
    interrupt: bool,
}

impl Read for Slow<'_> {
    fn read(&mut self, buffer: &mut [u8]) -> io::Result<usize> {
        self.interrupt = !self.interrupt;
        match self.interrupt {
            true => Err(io::ErrorKind::Interrupted.into()),
            false => self.left.take(7).read(buffer).inspect(|read| {
                self.left = &self.left[*read..];
            }),
        }
    }
}

fn slow(left: &[u8]) -> ReceivedRows<Slow<'_>> {
    let interrupt = false;
    ReceivedRows::new(Slow { left, interrupt })
}

#[test]
fn rows_of_any_source() {
    let text = whole();
    for rows in [
        slow(text.as_bytes()).collect::<Result<Vec<_>, _>>(),
        ReceivedRows::new(text.as_bytes()).collect(),
    ] {
        assert_eq!(rows.expect("a report"), [passed(), rejected()]);
    }
}

#[test]
fn a_source_that_ends_early_or_fails() {
    let text = whole();
    let mut rows = slow(&text.as_bytes()[..text.len() - 1]);
    for row in [passed(), rejected()] {
        assert_eq!(rows.next().and_then(Result::ok), Some(row));
    }
    let place = text.len() - 1;
    let early = Refusal { number: 22, place };
    assert!(matches!(rows.next(), Some(Err(ReadError::Refused(own))) if own == early));
    assert!(rows.next().is_none());
    struct Broken;
    impl Read for Broken {
        fn read(&mut self, _: &mut [u8]) -> io::Result<usize> {
            Err(io::Error::other("broken"))
        }
    }
    let mut rows = ReceivedRows::new(Broken);
    assert!(matches!(rows.next(), Some(Err(ReadError::Io(_)))));
    assert!(rows.next().is_none());
}

/// A reader at any place of the form, with numbers that no call gave.
fn any_reader(number: u64) -> Reader {
    let octet = |index: u64| (number.wrapping_mul(index * 2 + 3) >> 13) as u8;
    let state = raw::ReaderState {
        value: number.rotate_left(17),
        begin: number.rotate_left(29),
        count: number % 3,
        left: u16::from(octet(0)),
        node: octet(1) % 67,
        at: octet(2) % 20,
        length: u16::from(octet(3)),
        disposition: octet(4),
        kind: octet(5) % 3,
        numbers: octet(6) % 9,
        author: octet(7),
        identifiers: octet(8),
        domain: octet(9),
        selector: octet(10),
        ..raw::ReaderState::default()
    };
    let row = [octet(11); raw::ROW_OCTETS];
    Reader::from_raw(raw::Reader { state, row })
}

/// Whatever octets a reader has, it reads on within the part, a row that it hands out
/// has no more than any row has, and a refusal stays.
#[test]
fn readers_of_any_octets() {
    let text = [PASSED, REJECTED, PASSED, END].concat();
    let mut handed_out = 0;
    for turn in 0..40_000_u64 {
        let mut reader = any_reader((turn + 1).wrapping_mul(0x9e37_79b9_7f4a_7c15));
        let mut rest = &text.as_bytes()[turn as usize % text.len()..];
        let fed = loop {
            match reader.read(rest) {
                Ok(Fed::Row { row, used }) => {
                    assert!(row.author.chars().count() <= 253, "{row:?}");
                    assert!(row.identifiers.len() <= 16, "{row:?}");
                    rest = rest.get(used..).expect("octets of the part");
                    handed_out += 1;
                }
                other => break other,
            }
        };
        if let Err(refusal) = fed {
            assert_eq!(reader.read(b"<"), Err(refusal));
            assert_eq!(reader.end(), Err(refusal));
        }
    }
    assert!(handed_out > 20, "{handed_out}");
}

#[test]
fn meanings_of_the_refusals() {
    for number in [20, 21, 22] {
        let meaning = Refusal { number, place: 0 }.meaning();
        assert_ne!(meaning, "no number of a refusal");
    }
}
