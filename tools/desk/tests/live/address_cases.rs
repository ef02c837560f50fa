//! Report addresses, what a name server says for the names that their checks ask,
//! and what comes of it.

use desk::zone::{alias, record, records, strings, Said};

/// The example of RFC 9990, section 4, and the names of its two walks.
const POLICY: &str = "blue.example.com";
const ENTRY: &str = "mailto:reports@red.example.net";
const WALKED: [&str; 6] = [
    "_dmarc.blue.example.com",
    "_dmarc.example.com",
    "_dmarc.com",
    "_dmarc.red.example.net",
    "_dmarc.example.net",
    "_dmarc.net",
];
const CONFIRMING: &str = "blue.example.com._report._dmarc.red.example.net";

/// One check, live. Names are whole.
pub struct AddressCase {
    pub title: &'static str,
    /// What the server says; it knows no other names.
    pub zone: Vec<(String, Said)>,
    pub policy: String,
    pub entry: String,
    /// The names asked, in order.
    pub asked: Vec<String>,
    /// The name whose answer is over a limit.
    pub over_limit: Option<&'static str>,
    pub agreement: &'static str,
    /// The text that takes the address's place.
    pub rua: Option<&'static str>,
    /// Where reports may go.
    pub send: Vec<&'static str>,
    /// The entry in which a mailer may find another host.
    pub odd: Option<&'static str>,
    /// What the script says.
    pub said: Vec<&'static str>,
}

fn owned(names: &[&str]) -> Vec<String> {
    names.iter().map(|name| name.to_string()).collect()
}

/// A check of which nothing is sent, with what is said at these names.
fn case(title: &'static str, [policy, entry]: [&str; 2], zone: &[(&str, Said)]) -> AddressCase {
    let said = |(name, said): &(&str, Said)| (name.to_string(), said.clone());
    AddressCase {
        title,
        zone: zone.iter().map(said).collect(),
        policy: policy.to_string(),
        entry: entry.to_string(),
        asked: Vec::new(),
        over_limit: None,
        agreement: "no",
        rua: None,
        send: Vec::new(),
        odd: None,
        said: Vec::new(),
    }
}

/// The example, with this at its confirming name, which is asked last.
fn example(title: &'static str, said: Said) -> AddressCase {
    AddressCase {
        asked: owned(&[&WALKED[..], &[CONFIRMING]].concat()),
        ..case(title, [POLICY, ENTRY], &[(CONFIRMING, said)])
    }
}

fn confirmed(title: &'static str, said: Said) -> AddressCase {
    AddressCase {
        agreement: "confirmed",
        send: vec![ENTRY],
        ..example(title, said)
    }
}

fn not_known(title: &'static str, said: Said) -> AddressCase {
    AddressCase {
        agreement: "not known",
        ..example(title, said)
    }
}

/// The example with an error at the name of a walk, after which nothing is asked.
fn walk_error(title: &'static str, at: usize) -> AddressCase {
    AddressCase {
        zone: vec![
            (WALKED[at].to_string(), Said::Failure),
            (CONFIRMING.to_string(), record("v=DMARC1")),
        ],
        asked: owned(&WALKED[..=at]),
        ..not_known(title, Said::NoData)
    }
}

pub fn address_cases() -> Vec<AddressCase> {
    let mut all = agreed();
    all.extend(replaced());
    all.extend(refusing());
    all.extend(errors());
    all.extend(inside());
    all
}

fn agreed() -> Vec<AddressCase> {
    let wildcard = "*._report._dmarc.red.example.net".to_string();
    vec![
        confirmed("a confirming record", record("v=DMARC1")),
        AddressCase {
            zone: vec![(wildcard, record("v=DMARC1;"))],
            ..confirmed("a wildcard", Said::NoData)
        },
        confirmed("two records, and a text that is none", {
            records(&["v=spf1 -all", "v=DMARC1", "v=DMARC1; rua=nobody"])
        }),
        AddressCase {
            zone: vec![
                (CONFIRMING.to_string(), alias("agreed.example.net")),
                ("agreed.example.net".to_string(), record("v=DMARC1; p=none")),
            ],
            ..confirmed("behind a CNAME", Said::NoData)
        },
        AddressCase {
            asked: owned(&[
                "_dmarc.-f.example",
                "_dmarc.example",
                "_dmarc.red.example",
                "-f.example._report._dmarc.red.example",
            ]),
            agreement: "confirmed",
            send: vec!["mailto:a@red.example"],
            ..case(
                "a policy domain that begins as an option does",
                ["-f.example", "mailto:a@red.example"],
                &[("-f.example._report._dmarc.red.example", record("v=DMARC1"))],
            )
        },
    ]
}

fn replaced() -> Vec<AddressCase> {
    vec![
        AddressCase {
            agreement: "replaced",
            rua: Some("mailto:b@RED.example.net"),
            send: vec!["mailto:b@RED.example.net"],
            said: vec!["reports may go to mailto:b@RED.example.net"],
            ..example(
                "a rua of the same host",
                records(&[
                    "v=DMARC1; rua=nobody",
                    "v=DMARC1; rua=mailto:b@RED.example.net; p=none",
                ]),
            )
        },
        AddressCase {
            agreement: "replaced",
            rua: Some("https://other.example/r , mailto:b@red.example.net,mailto:c@d@red.example.net"),
            send: vec!["mailto:b@red.example.net", "mailto:c@d@red.example.net"],
            odd: Some("mailto:c@d@red.example.net"),
            said: vec![
                "reports may go to mailto:b@red.example.net",
                "reports may go to mailto:c@d@red.example.net",
                "nothing may go to entry 1 of rua, \"https://other.example/r\": its scheme is not mailto",
                "a mailer may find another host than red.example.net in mailto:c@d@red.example.net, \
                 since it has a second `@`",
            ],
            ..example(
                "a rua of the same host, with an entry that is passed over",
                strings(&[
                    b"v=DMARC1; rua=https://other.example/r , mail",
                    b"to:b@red.example.net,mailto:c@d@red.example.net",
                ]),
            )
        },
    ]
}

fn refusing() -> Vec<AddressCase> {
    let label = "x".repeat(60);
    let (policy, host) = (
        format!("{label}.{label}.a"),
        format!("{label}.{}.b", "y".repeat(52)),
    );
    vec![
        AddressCase {
            zone: Vec::new(),
            ..example("no record", Said::NoData)
        },
        example("no data", Said::NoData),
        example(
            "texts that are no policy records",
            records(&["v=dmarc1", "v=DMARC1; p=none; p=none"]),
        ),
        example(
            "another host in rua",
            record("v=DMARC1; rua=mailto:a@red.example.net,mailto:a@green.example"),
        ),
        AddressCase {
            asked: [&policy, &host]
                .into_iter()
                .flat_map(|domain| targets(domain))
                .collect(),
            ..case(
                "a confirming name of 254 octets",
                [&policy, &format!("mailto:r@{host}")],
                &[],
            )
        },
    ]
}

/// The names of a walk from a domain of few labels.
fn targets(domain: &str) -> Vec<String> {
    let below = domain.match_indices('.').map(|(dot, _)| dot + 1);
    let begins = [0].into_iter().chain(below);
    begins
        .map(|begin| format!("_dmarc.{}", &domain[begin..]))
        .collect()
}

fn errors() -> Vec<AddressCase> {
    let seventeen = [&["v=DMARC1"][..], &["x"; 16]].concat();
    vec![
        not_known("SERVFAIL at the confirming name", Said::Failure),
        not_known("no answer at the confirming name", Said::Silence),
        not_known("a referral at the confirming name", Said::Referral),
        walk_error("SERVFAIL in the policy domain's walk", 1),
        walk_error("SERVFAIL in the host's walk", 5),
        AddressCase {
            over_limit: Some(CONFIRMING),
            ..not_known("17 records", records(&seventeen))
        },
    ]
}

fn inside() -> Vec<AddressCase> {
    const ODD: &str = "mailto:x@victim.example?y=@own.example";
    vec![
        AddressCase {
            agreement: "inside",
            send: vec!["mailto:a@EXAMPLE.com."],
            ..case(
                "equal domains",
                ["example.com", "mailto:a@EXAMPLE.com."],
                &[("_dmarc.example.com", Said::Failure)],
            )
        },
        AddressCase {
            asked: owned(&[
                "_dmarc.a.example.com",
                "_dmarc.example.com",
                "_dmarc.com",
                "_dmarc.b.example.com",
            ]),
            agreement: "inside",
            send: vec!["mailto:x@b.example.com"],
            ..case(
                "equal organizational domains",
                ["a.example.com", "mailto:x@b.example.com"],
                &[("_dmarc.example.com", record("v=DMARC1; p=none"))],
            )
        },
        AddressCase {
            agreement: "inside",
            send: vec![ODD],
            odd: Some(ODD),
            said: vec![
                "a mailer may find another host than own.example in \
                 mailto:x@victim.example?y=@own.example, since it has a `?`",
            ],
            ..case("another host for a mailer", ["own.example", ODD], &[])
        },
    ]
}
