//! RFC 9989, appendix B.1 to B.4, as sheets.
//!
//! Where the appendix gives no policy record, one is taken that lets the example
//! show what it is there for; where it gives no identifier, there is none.

use super::row::Said::{self, Record};
use super::row::{author, Example};

const REJECT: Said = Record(&["v=DMARC1; p=reject"]);
const STRICT: Said = Record(&["v=DMARC1; p=reject; aspf=s; adkim=s"]);
const QUARANTINE: Said = Record(&["v=DMARC1; p=quarantine"]);
const NONE: Said = Record(&["v=DMARC1; p=none"]);

/// Of example.com, by its own record.
const OWN: Example = author("example.com")
    .answers(&["example.com", "com"])
    .at(&[("example.com", REJECT)])
    .asks(&["example.com"]);

/// B.1.1, of example.com with an identifier of child.example.com.
const BELOW: Example = OWN.given(&["spf pass child.example.com"]).answers(&[
    "example.com",
    "com",
    "child.example.com",
]);

/// B.1, of child.example.com with an identifier of example.net.
const CHILD: Example = author("child.example.com")
    .answers(&[
        "child.example.com",
        "example.com",
        "com",
        "example.net",
        "net",
    ])
    .at(&[("example.com", REJECT)])
    .asks(&[
        "child.example.com",
        "example.com",
        "com",
        "example.net",
        "net",
    ]);

/// B.2.3's record, and the name of the report consumer's.
const THIRD_PARTY: Said = Record(&[
    "v=DMARC1; p=none; ",
    "rua=mailto:dmarc-feedback@example.com; ",
    "ruf=mailto:auth-reports@thirdparty.example.net",
]);
const CONSUMER: &str = "example.com._report._dmarc.thirdparty.example.net";

/// B.2.5's records.
const TESTING: Said = Record(&[
    "v=DMARC1; p=quarantine; ",
    "rua=mailto:dmarc-feedback@example.com, ",
    "mailto:tld-test@thirdparty.example.net; ",
    "t=y",
]);
const TESTED: Said = Record(&[
    "v=DMARC1; p=reject; ",
    "rua=mailto:dmarc-feedback@example.com, ",
    "mailto:tld-test@thirdparty.example.net",
]);
const TEST_NAMES: &[&str] = &["test.example.com", "example.com", "com"];

/// B.2.5.
const TEST: Example = author("test.example.com")
    .answers(TEST_NAMES)
    .asks(&["test.example.com"]);

pub const APPENDIX_B: &[Example] = &[
    OWN.row("B.1.1, example 1: SPF in strict alignment")
        .given(&["spf pass example.com"])
        .at(&[("example.com", STRICT)])
        .gives("pass reject none"),
    BELOW
        .row("B.1.1, example 2: SPF in relaxed alignment")
        .asks(&["example.com", "com", "child.example.com"])
        .gives("pass reject none"),
    BELOW
        .row("B.1.1, example 2, in strict mode")
        .at(&[("example.com", STRICT)])
        .gives("fail reject reject"),
    CHILD
        .row("B.1.1, example 3: no SPF alignment")
        .given(&["spf pass example.net"])
        .gives("fail reject reject"),
    OWN.row("B.1.2, example 1: DKIM in strict alignment")
        .given(&["dkim pass example.com"])
        .at(&[("example.com", STRICT)])
        .gives("pass reject none"),
    CHILD
        .row("B.1.2, example 2: DKIM in relaxed alignment")
        .given(&["dkim pass example.com"])
        .answers(&["child.example.com", "example.com", "com"])
        .asks(&["child.example.com", "example.com", "com"])
        .gives("pass reject none"),
    CHILD
        .row("B.1.2, example 3: no DKIM alignment")
        .given(&["dkim pass example.net"])
        .gives("fail reject reject"),
    OWN.row("B.2.1: entire domain, monitoring mode")
        .at(&[(
            "example.com",
            Record(&[
                "v=DMARC1; p=none; ",
                "rua=mailto:dmarc-feedback@example.com",
            ]),
        )])
        .gives("fail none none"),
    OWN.row("B.2.2: per-message failure reports")
        .at(&[(
            "example.com",
            Record(&[
                "v=DMARC1; p=none; ",
                "rua=mailto:dmarc-feedback@example.com; ",
                "ruf=mailto:auth-reports@example.com",
            ]),
        )])
        .gives("fail none none"),
    OWN.row("B.2.3: failure reports directed to a third party")
        .answers(&["example.com", "com", CONSUMER])
        .at(&[
            ("example.com", THIRD_PARTY),
            (CONSUMER, Record(&["v=DMARC1;"])),
        ])
        .gives("fail none none"),
    OWN.row("B.2.4: overriding destination addresses")
        .answers(&["example.com", "com", CONSUMER])
        .at(&[
            ("example.com", THIRD_PARTY),
            (
                CONSUMER,
                Record(&[
                    "v=DMARC1; ",
                    "rua=mailto:aggregate-reports@thirdparty.example.net; ",
                    "ruf=mailto:failure-reports@thirdparty.example.net",
                ]),
            ),
        ])
        .gives("fail none none"),
    TEST.row("B.2.5: subdomain, testing")
        .at(&[("test.example.com", TESTING)])
        .gives("fail none none"),
    TEST.row("B.2.5: subdomain, no longer testing")
        .at(&[("test.example.com", TESTED)])
        .gives("fail reject reject"),
    OWN.row("B.2.5: applied only to this subdomain")
        .answers(TEST_NAMES)
        .at(&[("test.example.com", TESTED)])
        .asks(&["example.com", "com"])
        .gives("none none none"),
    OWN.row("B.3.1: SMTP session")
        .given(&["spf pass mail.example.com", "dkim pass example.com"])
        .answers(&["example.com", "com", "mail.example.com"])
        .at(&[(
            "example.com",
            Record(&["v=DMARC1; p=reject; aspf=r; rua=mailto:dmarc-feedback@example.com"]),
        )])
        .asks(&["example.com", "com", "mail.example.com"])
        .gives("pass reject none"),
    OWN.row("B.4.1: simple organizational and policy example")
        .given(&["spf pass example.com", "dkim pass signing.example.com"])
        .answers(&["example.com", "signing.example.com", "com"])
        .at(&[("example.com", QUARANTINE), ("signing.example.com", NONE)])
        .asks(&["example.com", "com", "signing.example.com"])
        .gives("pass quarantine none"),
    author("a.b.c.d.e.f.g.h.i.j.k.example.com")
        .row("B.4.2: deep tree walk example")
        .given(&["spf pass example.com", "dkim pass signing.example.com"])
        .answers(&[
            "a.b.c.d.e.f.g.h.i.j.k.example.com",
            "g.h.i.j.k.example.com",
            "h.i.j.k.example.com",
            "i.j.k.example.com",
            "j.k.example.com",
            "k.example.com",
            "example.com",
            "signing.example.com",
            "com",
        ])
        .at(&[("example.com", QUARANTINE), ("signing.example.com", NONE)])
        .asks(&[
            "a.b.c.d.e.f.g.h.i.j.k.example.com",
            "g.h.i.j.k.example.com",
            "h.i.j.k.example.com",
            "i.j.k.example.com",
            "j.k.example.com",
            "k.example.com",
            "example.com",
            "com",
            "signing.example.com",
        ])
        .gives("pass quarantine none"),
    author("giant.bank.example")
        .row("B.4.3: a PSD policy record")
        .given(&[
            "spf pass mail.giant.bank.example",
            "dkim pass mail.mega.bank.example",
        ])
        .answers(&[
            "giant.bank.example",
            "bank.example",
            "example",
            "mail.giant.bank.example",
            "mega.bank.example",
            "mail.mega.bank.example",
        ])
        .at(&[
            ("giant.bank.example", QUARANTINE),
            ("bank.example", Record(&["v=DMARC1; p=reject; psd=y"])),
        ])
        .asks(&[
            "giant.bank.example",
            "bank.example",
            "mail.giant.bank.example",
            "mail.mega.bank.example",
            "mega.bank.example",
        ])
        .gives("pass quarantine none"),
];
