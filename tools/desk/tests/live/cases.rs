//! Messages, what a name server says for the names that they ask, and what comes
//! of it.

use desk::zone::{alias, long, record, records, strings, Said};

/// Document 01's record E, and Y.
const E: &str = "v=DMARC1; p=reject; sp=quarantine; np=reject; aspf=s";
const Y: &str = "v=DMARC1; p=reject; psd=y";

/// One message, live. Names are without `_dmarc.`, which stands before each.
pub struct Case {
    pub title: &'static str,
    /// What the server says; it knows no other names.
    pub zone: Vec<(&'static str, Said)>,
    /// The message in the lines of a description.
    pub message: &'static [&'static str],
    /// The names asked, in order.
    pub asked: &'static [&'static str],
    /// Those whose reply has no room in a datagram.
    pub by_tcp: &'static [&'static str],
    /// The name whose answer is over a limit.
    pub over_limit: Option<&'static str>,
    /// Result, policy, disposition.
    pub verdict: [&'static str; 3],
    /// What the C program prints after the verdict.
    pub more: &'static [&'static str],
}

/// No lookups over TCP, no answer over a limit.
fn case(title: &'static str, zone: Vec<(&'static str, Said)>) -> Case {
    Case {
        title,
        zone,
        message: &[],
        asked: &[],
        by_tcp: &[],
        over_limit: None,
        verdict: ["", "", ""],
        more: &[],
    }
}

/// The message of example.com without identifiers, one lookup, by record E.
fn own_record(title: &'static str, said: Said) -> Case {
    Case {
        message: &["author example.com exists supported"],
        asked: &["example.com"],
        verdict: ["fail", "reject", "reject"],
        more: &["record example.com"],
        ..case(title, vec![("example.com", said)])
    }
}

/// The same where the lookup failed: one lookup, and the message is deferred.
fn own_error(title: &'static str, said: Said) -> Case {
    Case {
        verdict: ["temperror", "unknown", "defer"],
        more: &[],
        ..own_record(title, said)
    }
}

/// Marked sheet 3, with what is said at the names without a record.
fn up_to_a_record(title: &'static str, at_news: Said, at_com: Said) -> Case {
    let zone = vec![
        ("news.example.com", at_news),
        ("example.com", record(E)),
        ("com", at_com),
    ];
    Case {
        message: &["author news.example.com exists supported"],
        asked: &["news.example.com", "example.com", "com"],
        verdict: ["fail", "quarantine", "quarantine"],
        more: &["record example.com"],
        ..case(title, zone)
    }
}

pub fn cases() -> Vec<Case> {
    let mut all = found();
    all.extend(not_found());
    all.extend(errors());
    all.extend(long_answers());
    all
}

fn found() -> Vec<Case> {
    vec![
        Case {
            message: &[
                "author example.com exists supported",
                "dkim pass mail.example.com",
            ],
            asked: &["example.com", "com", "mail.example.com"],
            verdict: ["pass", "reject", "none"],
            more: &[
                "record example.com",
                "dkim=pass:mail.example.com: aligned",
                "Identity-Alignment: none",
            ],
            ..case("marked sheet 1", vec![("example.com", record(E))])
        },
        own_record(
            "one record of several strings",
            strings(&[b"v=DMA", b"RC1; p=rej", b"", b"ect; sp=none"]),
        ),
        own_record(
            "quotes, backslashes, semicolons and octets that are not printed",
            strings(&[b"v=DMARC1;a=\"\\b\"\\;", b"c=\xc3\xa9\x00\x7f \"; p=reject"]),
        ),
        Case {
            message: &[
                "author EXAMPLE.com exists supported",
                "spf pass example.COM",
                "dkim fail example.net",
                "dkim temperror example.org",
            ],
            asked: &["example.com"],
            verdict: ["pass", "reject", "none"],
            more: &[
                "record example.com",
                "spf=pass:example.COM: aligned",
                "dkim=fail:example.net: not aligned",
                "dkim=temperror:example.org: not aligned",
                "Identity-Alignment: dkim",
            ],
            ..case(
                "behind two CNAMEs",
                vec![
                    ("example.com", alias("_dmarc.example.net")),
                    ("example.net", alias("_dmarc.example.org")),
                    ("example.org", record(E)),
                ],
            )
        },
        Case {
            message: &[
                "author a.shop.example exists supported",
                "dkim pass shop.example",
            ],
            asked: &["a.shop.example", "shop.example", "example"],
            verdict: ["pass", "reject", "none"],
            more: &[
                "record example",
                "dkim=pass:shop.example: aligned",
                "Identity-Alignment: none",
            ],
            ..case("marked sheet 6: psd=y", vec![("example", record(Y))])
        },
    ]
}

fn not_found() -> Vec<Case> {
    vec![
        Case {
            zone: vec![("example.com", record(E))],
            ..up_to_a_record("NXDOMAIN", Said::NoData, Said::NoData)
        },
        up_to_a_record("NOERROR without data", Said::NoData, Said::NoData),
        up_to_a_record(
            "a CNAME to a name that does not exist, and to one without data",
            alias("_dmarc.gone.example"),
            alias("_dmarc.news.example.net"),
        ),
        up_to_a_record(
            "texts that are no policy records",
            records(&["v=spf1 -all", "v=dmarc1; p=reject"]),
            record(""),
        ),
        Case {
            asked: &["example.com", "com"],
            verdict: ["none", "none", "none"],
            more: &[],
            ..own_record("two records at one name", records(&[E, Y]))
        },
    ]
}

fn errors() -> Vec<Case> {
    let unknown = Case {
        message: &[
            "author example.com exists unsupported",
            "dkim pass example.net",
        ],
        asked: &["example.com", "com", "example.net"],
        verdict: ["temperror", "reject", "defer"],
        more: &["record example.com", "dkim=pass:example.net: unknown"],
        ..case(
            "SERVFAIL at an identifier's name",
            vec![("example.com", record(E)), ("example.net", Said::Failure)],
        )
    };
    vec![
        own_error("SERVFAIL", Said::Failure),
        own_error(
            "SERVFAIL beside a record",
            Said::FailureWith(";; ->>HEADER<<- status: NOERROR, v=DMARC1; p=none".to_string()),
        ),
        own_error("no answer at all", Said::Silence),
        own_error("a damaged reply", Said::Damaged),
        own_error("a referral", Said::Referral),
        Case {
            by_tcp: &["example.com"],
            ..own_error("a reply that is cut off, over TCP too", Said::CutOff)
        },
        Case {
            asked: &["news.example.com", "example.com"],
            verdict: ["temperror", "unknown", "defer"],
            more: &[],
            zone: vec![("example.com", Said::Failure)],
            ..up_to_a_record("marked sheet 5", Said::NoData, Said::NoData)
        },
        unknown,
    ]
}

/// "one answer: 4,096 octets, 16 records"
fn long_answers() -> Vec<Case> {
    let text = |octets: usize| {
        let begin = "v=DMARC1; p=reject; x=";
        format!("{begin}{}", "x".repeat(octets - begin.len()))
    };
    let sixteen = [&[E][..], &["x"; 15]].concat();
    let seventeen = [&[E][..], &["x"; 16]].concat();
    vec![
        own_record("16 records", records(&sixteen)),
        Case {
            zone: vec![
                ("example.com", alias("_dmarc.example.net")),
                ("example.net", records(&sixteen)),
            ],
            ..own_record("16 records behind a CNAME", Said::NoData)
        },
        Case {
            over_limit: Some("example.com"),
            ..own_error("17 records", records(&seventeen))
        },
        Case {
            by_tcp: &["example.com"],
            ..own_record("4,000 octets, over TCP", long(&text(4000)))
        },
        Case {
            by_tcp: &["example.com"],
            over_limit: Some("example.com"),
            ..own_error("5,000 octets, over TCP", long(&text(5000)))
        },
        Case {
            by_tcp: &["example.com"],
            over_limit: Some("example.com"),
            ..own_error("60,000 octets, over TCP", long(&text(60_000)))
        },
    ]
}
