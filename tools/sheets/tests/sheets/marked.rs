//! The marked sheets of document 01 as sheet octets (reading 116).

use crate::octets::{an_error, an_none, an_text, au, id, run, E, Y};
use sheets::examples::MARKED;

/// Marked sheet 1, octet by octet.
const SHEET_1: &[u8] = b"AU\x00\x0d\x01\x01example.com\
ID\x00\x12\x01\x01mail.example.com\
AN\x00\x4d\x00\x12_dmarc.example.com\
TX\x00\x35\x34v=DMARC1; p=reject; sp=quarantine; np=reject; aspf=s\
AN\x00\x0c\x01\x0a_dmarc.com\
AN\x00\x19\x01\x17_dmarc.mail.example.com";

/// The whole output of marked sheet 1, as document 01 prints it.
const OUTPUT_1: &str = "ask _dmarc.example.com
ask _dmarc.com
ask _dmarc.mail.example.com
result pass
policy reject
disposition none
asked 3
";

/// Author example.com with a text of its own and no identifiers.
fn own(text: &str) -> Vec<u8> {
    let author = au(1, 1, b"example.com");
    [
        author,
        an_text("_dmarc.example.com", text),
        an_none("_dmarc.com"),
    ]
    .concat()
}

/// example.com with an identifier of a kind at mail.example.com.
fn mail(support: u8, kind: u8) -> Vec<u8> {
    [
        au(1, support, b"example.com"),
        id(kind, 1, b"mail.example.com"),
        an_text("_dmarc.example.com", E),
        an_none("_dmarc.com"),
        an_none("_dmarc.mail.example.com"),
    ]
    .concat()
}

/// news.example.com without identifiers.
fn news(existence: u8, at_example_com: Vec<u8>) -> Vec<u8> {
    [
        au(existence, 1, b"news.example.com"),
        an_none("_dmarc.news.example.com"),
        at_example_com,
        an_none("_dmarc.com"),
    ]
    .concat()
}

/// An author with a DKIM pass of shop.example, Y at example.
fn shop(author: &[u8], before: Vec<u8>) -> Vec<u8> {
    [
        au(1, 1, author),
        id(1, 1, b"shop.example"),
        before,
        an_none("_dmarc.shop.example"),
        an_text("_dmarc.example", Y),
    ]
    .concat()
}

fn nine_labels() -> Vec<u8> {
    let domain = "a.b.c.d.e.f.g.h.test";
    let mut sheet = [
        au(1, 1, domain.as_bytes()),
        an_none(&format!("_dmarc.{domain}")),
    ]
    .concat();
    for labels in (1..=7).rev() {
        let all: Vec<&str> = domain.split('.').collect();
        let name = format!("_dmarc.{}", all[9 - labels..].join("."));
        sheet.extend(an_none(&name));
    }
    sheet
}

/// The fifteen sheets by the names of the rows.
fn sheets() -> Vec<(&'static str, Vec<u8>)> {
    let e = || an_text("_dmarc.example.com", E);
    let either_case = [
        au(1, 1, b"EXAMPLE.com"),
        id(0, 1, b"example.COM"),
        e(),
        an_none("_dmarc.com"),
    ];
    vec![
        ("1", mail(1, 1)),
        ("2", mail(1, 0)),
        ("2, support 0", mail(0, 0)),
        ("3", news(1, e())),
        ("4, existence 0", news(0, e())),
        ("4, existence 2", news(2, e())),
        ("5", news(1, an_error("_dmarc.example.com"))),
        (
            "6",
            shop(b"a.shop.example", an_none("_dmarc.a.shop.example")),
        ),
        ("7", shop(b"example", Vec::new())),
        ("8", either_case.concat()),
        ("9", nine_labels()),
        ("10", own("v=DMARC1; p=reject; t=y")),
        ("11", own("v=dmarc1; p=reject")),
        ("12", own("v=DMARC1; p=often")),
        (
            "12, with rua",
            own("v=DMARC1; p=often; rua=mailto:r@example.com"),
        ),
    ]
}

#[test]
fn marked_sheet_1_octet_by_octet() {
    assert_eq!(mail(1, 1), SHEET_1);
    assert_eq!(run(SHEET_1), OUTPUT_1);
}

#[test]
fn the_fifteen_rows() {
    let sheets = sheets();
    assert_eq!(sheets.len(), 15);
    assert_eq!(MARKED.len(), 15);
    for ((name, sheet), row) in sheets.iter().zip(MARKED) {
        assert_eq!(*name, row.name);
        assert_eq!(run(sheet), row.output(), "marked sheet {name}");
        assert_eq!(
            row.sheet().as_deref(),
            Ok(sheet.as_slice()),
            "description of {name}"
        );
        assert!(row.holds());
    }
}

#[test]
fn unused_answers_do_not_change_a_marked_sheet() {
    // E and Y stand on every sheet; what is not asked is ignored.
    for (name, sheet) in sheets() {
        let more = [sheet.clone(), an_none("_dmarc.unasked.test")].concat();
        assert_eq!(run(&more), run(&sheet), "marked sheet {name}");
    }
}
