//! The twelve marked sheets of document 01 with all their variants.

use super::row::Said::{self, Error, Record};
use super::row::{author, Example};

/// "Records: E ... at example.com; Y ... at example. All else none".
const E_AND_Y: &[(&str, Said)] = &[
    (
        "example.com",
        Record(&["v=DMARC1; p=reject; sp=quarantine; np=reject; aspf=s"]),
    ),
    ("example", Record(&["v=DMARC1; p=reject; psd=y"])),
];

/// 1 and 2.
const MAIL: Example = author("example.com")
    .answers(&["example.com", "com", "mail.example.com"])
    .at(E_AND_Y);

/// 3 to 5.
const NEWS: Example = author("news.example.com")
    .answers(&["news.example.com", "example.com", "com"])
    .at(E_AND_Y)
    .asks(&["news.example.com", "example.com", "com"]);

/// 10 to 12: "author example.com, no identifiers, the text there in place of E".
const OWN: Example = author("example.com")
    .answers(&["example.com", "com"])
    .asks(&["example.com"]);

/// The eight names of a walk from nine labels.
const NINE_LABELS: &[&str] = &[
    "a.b.c.d.e.f.g.h.test",
    "c.d.e.f.g.h.test",
    "d.e.f.g.h.test",
    "e.f.g.h.test",
    "f.g.h.test",
    "g.h.test",
    "h.test",
    "test",
];

/// The fifteen rows.
pub const MARKED: &[Example] = &[
    MAIL.row("1")
        .given(&["dkim pass mail.example.com"])
        .asks(&["example.com", "com", "mail.example.com"])
        .gives("pass reject none"),
    MAIL.row("2")
        .given(&["spf pass mail.example.com"])
        .asks(&["example.com"])
        .gives("fail reject reject"),
    MAIL.row("2, support 0")
        .support("unsupported")
        .given(&["spf pass mail.example.com"])
        .asks(&["example.com"])
        .gives("fail reject quarantine"),
    NEWS.row("3").gives("fail quarantine quarantine"),
    NEWS.row("4, existence 0")
        .existence("missing")
        .gives("fail reject reject"),
    NEWS.row("4, existence 2")
        .existence("unknown")
        .gives("temperror unknown defer"),
    NEWS.row("5")
        .at(&[("example.com", Error)])
        .asks(&["news.example.com", "example.com"])
        .gives("temperror unknown defer"),
    author("a.shop.example")
        .row("6")
        .given(&["dkim pass shop.example"])
        .answers(&["a.shop.example", "shop.example", "example"])
        .at(E_AND_Y)
        .asks(&["a.shop.example", "shop.example", "example"])
        .gives("pass reject none"),
    author("example")
        .row("7")
        .given(&["dkim pass shop.example"])
        .answers(&["shop.example", "example"])
        .at(E_AND_Y)
        .asks(&["example", "shop.example"])
        .gives("fail reject reject"),
    author("EXAMPLE.com")
        .row("8")
        .given(&["spf pass example.COM"])
        .answers(&["example.com", "com"])
        .at(E_AND_Y)
        .asks(&["example.com"])
        .gives("pass reject none"),
    author("a.b.c.d.e.f.g.h.test")
        .row("9")
        .answers(NINE_LABELS)
        .asks(NINE_LABELS)
        .gives("none none none"),
    OWN.row("10")
        .at(&[("example.com", Record(&["v=DMARC1; p=reject; t=y"]))])
        .gives("fail quarantine quarantine"),
    OWN.row("11")
        .at(&[("example.com", Record(&["v=dmarc1; p=reject"]))])
        .asks(&["example.com", "com"])
        .gives("none none none"),
    OWN.row("12")
        .at(&[("example.com", Record(&["v=DMARC1; p=often"]))])
        .gives("permerror none none"),
    OWN.row("12, with rua")
        .at(&[(
            "example.com",
            Record(&["v=DMARC1; p=often; rua=mailto:r@example.com"]),
        )])
        .gives("fail none none"),
];
