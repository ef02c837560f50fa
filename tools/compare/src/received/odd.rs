//! Texts written by hand, one for each odd thing.

use super::edges::{
    ADDRESSES, BETWEEN, COUNTS, DKIM, DOMAINS, IDS, OTHERS, SPF, TEXTS, TIMES, WORDS,
};

/// A report and its name.
pub type Named = (String, Vec<u8>);

/// Reading 162's report.
pub const PLAIN: &str = concat!(
    r#"<?xml version="1.0" encoding="UTF-8"?>"#,
    r#"<feedback xmlns="urn:ietf:params:xml:ns:dmarc-2.0">"#,
    "<report_metadata><org_name>A &amp; B</org_name><email>r@gate.example</email>",
    "<report_id>r7</report_id>",
    "<date_range><begin>1700000000</begin><end>1700086399</end></date_range>",
    "</report_metadata>",
    "<policy_published><domain>example.com</domain><p>reject</p><sp>quarantine</sp>",
    "<np>reject</np><adkim>r</adkim><aspf>s</aspf><testing>n</testing></policy_published>",
    "<record><row><source_ip>192.0.2.1</source_ip><count>3</count>",
    "<policy_evaluated><disposition>pass</disposition><dkim>pass</dkim><spf>fail</spf>",
    "</policy_evaluated></row>",
    "<identifiers><header_from>example.com</header_from></identifiers>",
    "<auth_results>",
    "<dkim><domain>mail.example.com</domain><selector>s1</selector>",
    "<result>pass</result></dkim>",
    "<spf><domain>bounce.example.net</domain><result>fail</result></spf>",
    "</auth_results></record>",
    "</feedback>"
);

/// A record without identifiers.
const RECORD: &str = concat!(
    "<record><row><source_ip>2001:db8:0:0:0:0:0:1</source_ip><count>10</count>",
    "<policy_evaluated><disposition>none</disposition><dkim>fail</dkim><spf>fail</spf>",
    "</policy_evaluated></row><identifiers><header_from>a.b</header_from></identifiers>",
    "<auth_results></auth_results></record>"
);
/// What stands in an element's stead, by its name.
const CONTENTS: &[(&str, &[&str])] = &[
    ("begin", TIMES),
    ("end", TIMES),
    ("count", COUNTS),
    ("source_ip", ADDRESSES),
    ("domain", DOMAINS),
    ("header_from", DOMAINS),
    ("selector", DOMAINS),
    ("org_name", TEXTS),
    ("email", TEXTS),
    ("report_id", IDS),
    ("p", WORDS),
    ("sp", WORDS),
    ("np", WORDS),
    ("adkim", WORDS),
    ("aspf", WORDS),
    ("testing", WORDS),
    ("disposition", WORDS),
    ("result", WORDS),
    ("policy_evaluated", EVALUATED),
    ("policy_published", PUBLISHED),
    ("date_range", RANGES),
];
/// Disposition and methods.
const EVALUATED: &[&str] = &[
    "<disposition>none</disposition><dkim>pass</dkim><spf>pass</spf>",
    "<disposition>none</disposition><dkim>fail</dkim><spf>pass</spf>",
    "<disposition>none</disposition><dkim>fail</dkim><spf>fail</spf>",
    "<disposition>pass</disposition><dkim>pass</dkim><spf>pass</spf>",
    "<disposition>pass</disposition><dkim>fail</dkim><spf>pass</spf>",
    "<disposition>pass</disposition><dkim>fail</dkim><spf>fail</spf>",
    "<disposition>reject</disposition><dkim>pass</dkim><spf>fail</spf>",
    "<disposition>reject</disposition><dkim>fail</dkim><spf>fail</spf>",
    "<disposition>quarantine</disposition><dkim>fail</dkim><spf>pass</spf>",
    "<dkim>pass</dkim><disposition>pass</disposition><spf>fail</spf>",
    "<disposition>pass</disposition><spf>pass</spf><dkim>fail</dkim>",
    "<disposition>pass</disposition><dkim>pass</dkim>",
];
/// The policy from the domain on.
const PUBLISHED: &[&str] = &[
    "<domain>a</domain><p>none</p><adkim>r</adkim><aspf>r</aspf><testing>y</testing>",
    "<domain>a</domain><p>none</p><sp>none</sp><adkim>r</adkim><aspf>r</aspf>\
     <testing>y</testing>",
    "<domain>a</domain><p>none</p><np>none</np><adkim>r</adkim><aspf>r</aspf>\
     <testing>y</testing>",
    "<domain>a</domain><p>none</p><np>none</np><sp>none</sp><adkim>r</adkim><aspf>r</aspf>\
     <testing>y</testing>",
    "<domain>a</domain><adkim>r</adkim><aspf>r</aspf><p>none</p><testing>y</testing>",
    "<domain>a</domain><p>none</p><aspf>r</aspf><adkim>r</adkim><testing>y</testing>",
    "<domain>a</domain><p>none</p><adkim>r</adkim><aspf>r</aspf>",
    "<domain>a</domain><p>none</p><adkim>r</adkim><aspf>r</aspf>\
     <discovery_method>psl</discovery_method><testing>y</testing>",
];
const RANGES: &[&str] = &[
    "<begin>0</begin><end>0</end>",
    "<begin>7</begin><end>7</end>",
    "<begin>10</begin><end>9</end>",
    "<begin>10</begin><end>90</end>",
    "<begin>1</begin><end>0</end>",
    "<begin>18446744073709551615</begin><end>18446744073709551615</end>",
    "<begin>18446744073709551615</begin><end>18446744073709551614</end>",
    "<begin>18446744073709551615</begin><end>18446744073709551616</end>",
    "<begin>18446744073709551616</begin><end>18446744073709551617</end>",
    "<begin>4294967296</begin><end>1</end>",
    "<end>1</end><begin>1</begin>",
    "<begin>1</begin>",
];

/// All of them.
pub fn texts() -> Vec<Named> {
    let mut texts = vec![
        ("plain".to_string(), PLAIN.into()),
        ("nothing".to_string(), Vec::new()),
    ];
    for (name, contents) in CONTENTS {
        let each = contents.iter().map(|content| with(name, content));
        texts.extend(named(name, each));
    }
    texts.extend(named("a limit", limits()));
    texts.extend(named("identifiers", identifiers()));
    texts.extend(named("records", records()));
    texts.extend(named("a form of others", others()));
    texts
}

fn named(name: &str, texts: impl IntoIterator<Item = String>) -> Vec<Named> {
    let texts = texts.into_iter().enumerate();
    let named = texts.map(|(number, text)| (format!("{name} {number}"), text.into_bytes()));
    named.collect()
}

/// The plain report with something else in the first element of a name.
fn with(name: &str, content: &str) -> String {
    let (start, end) = (format!("<{name}>"), format!("</{name}>"));
    let (front, rest) = PLAIN.split_once(&start).unwrap_or_default();
    let (_, behind) = rest.split_once(&end).unwrap_or_default();
    format!("{front}{start}{content}{end}{behind}")
}

/// Texts, ids, labels and domains about their most octets.
fn limits() -> Vec<String> {
    let mut texts = Vec::new();
    for length in 4095..=4097 {
        texts.push(with("org_name", &"a".repeat(length)));
        texts.push(with("email", &"&lt;".repeat(length)));
        let contact = format!("</email><extra_contact_info>{}", "&amp;".repeat(length));
        let contact = PLAIN.replacen("</email>", &(contact + "</extra_contact_info>"), 1);
        texts.push(contact);
    }
    for length in 62..=66 {
        let label = "x".repeat(length);
        texts.push(with("report_id", &label));
        for name in ["domain", "header_from", "selector"] {
            texts.push(with(name, &label));
            texts.push(with(name, &format!("a.{label}.b")));
        }
    }
    let label = "x".repeat(63);
    let three = format!("{label}.{label}.{label}");
    for length in 58..=63 {
        for name in ["domain", "header_from", "selector"] {
            texts.push(with(name, &format!("{three}.{}", &label[..length])));
            texts.push(with(name, &format!("{}.{three}", &label[..length])));
            texts.push(with(name, &format!("{three}.{}.", &label[..length])));
        }
    }
    texts
}

fn identifiers() -> Vec<String> {
    let mut contents = vec![
        String::new(),
        SPF.to_string(),
        SPF.repeat(2),
        format!("{SPF}{DKIM}"),
        format!("{DKIM}{SPF}{DKIM}"),
        format!("{DKIM}{SPF}"),
        "<spf><domain>d</domain><scope>mfrom</scope><result>pass</result></spf>".to_string(),
        "<spf><domain>d</domain><selector>s</selector><result>pass</result></spf>".to_string(),
        "<spf><domain>d</domain><result>permerror</result></spf>".to_string(),
        "<dkim><domain>d</domain><result>pass</result></dkim>".to_string(),
        "<dkim><selector>s</selector><domain>d</domain><result>pass</result></dkim>".to_string(),
        "<dkim><domain>d</domain><result>pass</result><selector>s</selector></dkim>".to_string(),
    ];
    for count in 14..=17 {
        contents.push(DKIM.repeat(count));
        contents.push(DKIM.repeat(count) + SPF);
    }
    contents
        .iter()
        .map(|own| with("auth_results", own))
        .collect()
}

/// Several records, about their most, and none.
fn records() -> Vec<String> {
    let behind = |records: &str| PLAIN.replace("</feedback>", &format!("{records}</feedback>"));
    let mut texts: Vec<String> = [1, 2, 254, 255, 256, 300]
        .iter()
        .map(|count| behind(&RECORD.repeat(*count)))
        .collect();
    let (front, rest) = PLAIN.split_once("<record>").unwrap_or_default();
    texts.push(format!("{front}</feedback>"));
    texts.push(format!("{front}{RECORD}<record>{rest}"));
    texts.push(behind("<record></record>"));
    texts.push(behind(&RECORD.replace("<count>10", "<count>x")));
    texts.push(PLAIN.replace("</record>", "</record><x>"));
    texts.push(PLAIN.replace("</record>", ""));
    texts
}

fn others() -> Vec<String> {
    let others = OTHERS.iter().map(|(from, to)| PLAIN.replace(from, to));
    let blanks = BETWEEN
        .iter()
        .map(|own| PLAIN.replace("><", &format!(">{own}<")));
    others.chain(blanks).collect()
}

/// The plain report and one of two records cut at each place, with each octet left out,
/// doubled, and replaced by ones near it or of other places.
pub fn changed() -> Vec<Vec<u8>> {
    let two = PLAIN.replace("</feedback>", &format!("{RECORD}</feedback>"));
    let mut texts = Vec::new();
    for text in [PLAIN.as_bytes(), two.as_bytes()] {
        for place in 0..text.len() {
            let (front, rest) = text.split_at(place);
            let (own, behind) = rest.split_at(1);
            texts.push(front.to_vec());
            texts.push([front, behind].concat());
            texts.push([front, own, own, behind].concat());
            texts.extend(near(own[0]).map(|octet| [front, &[octet], behind].concat()));
        }
    }
    texts
}

fn near(octet: u8) -> impl Iterator<Item = u8> {
    let near = [1, 0x20, 0x40, 0x80]
        .into_iter()
        .map(move |bit| octet ^ bit);
    let others = b"<>&/.:;09afpsxZ \n\0".iter().copied();
    near.chain(others).filter(move |other| *other != octet)
}
