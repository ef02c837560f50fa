//! Ask 9 of document 02 and readings 146 to 154, 159, 162 and 223 to 225: the
//! aggregate report (RFC 9990, 3.1.1 and appendix A). The refusals stand in
//! `aggregate_refusals`.

use crate::beside::{authors, member, set};
use crate::case::refusal;
use crate::day::{between, cleared, day, handed, row, Day};
use evaluator::aggregate::Reporter;

/// A domain of 253 octets.
fn longest() -> String {
    let label = "X".repeat(63);
    format!("{label}.{label}.{label}.{}", &label[2..])
}

/// Reading 162's test vector.
#[test]
fn the_report_of_reading_162() {
    let expected = concat!(
        r#"<?xml version="1.0" encoding="UTF-8"?>"#,
        r#"<feedback xmlns="urn:ietf:params:xml:ns:dmarc-2.0">"#,
        "<report_metadata><org_name>A &amp; B</org_name><email>r@gate.example</email>",
        "<report_id>r7</report_id>",
        "<date_range><begin>1700000000</begin><end>1700086399</end></date_range>",
        "</report_metadata>",
        "<policy_published><domain>example.com</domain><p>reject</p><sp>quarantine</sp>",
        "<np>reject</np><adkim>r</adkim><aspf>s</aspf><testing>n</testing></policy_published>",
        "<record><row><source_ip>192.0.2.1</source_ip><count>3</count>",
        "<policy_evaluated><disposition>pass</disposition><dkim>pass</dkim><spf>fail</spf>",
        "</policy_evaluated></row>",
        "<identifiers><header_from>example.com</header_from></identifiers>",
        "<auth_results>",
        "<dkim><domain>mail.example.com</domain><selector>s1</selector>",
        "<result>pass</result></dkim>",
        "<spf><domain>bounce.example.net</domain><result>fail</result></spf>",
        "</auth_results></record>",
        "</feedback>"
    );
    assert_eq!(expected.len(), 879);
    assert_eq!(expected.find("<disposition>pass"), Some(533 - 13));
    assert_eq!(day().text(), expected);
}

#[test]
fn memory_as_long_as_is_needed() {
    let text = day().text();
    for spare in [0, 1, 40] {
        let (written, lent) = day().lent(879 + spare);
        assert_eq!(written, Ok(879));
        assert_eq!(&lent[..879], text.as_bytes());
        assert!(lent[879..].iter().all(|octet| *octet == 170));
    }
    for short in [0, 1, 878] {
        let (refused, lent) = day().lent(short);
        assert_eq!(refused, Err(refusal(10, 879)));
        assert!(lent.iter().all(|octet| *octet == 170));
    }
}

/// The metadata of a report with these texts.
fn metadata(reporter: Reporter<'static>) -> String {
    let day = Day { reporter, ..day() };
    between(&day.text(), "<report_metadata>", "</report_metadata>").to_string()
}

#[test]
fn point_154_texts() {
    let reporter = Reporter {
        organization: b"<\"a\"&'b'>",
        email: b"&amp;",
        contact: b" ;<x@y>~ ",
        id: b"Ab9Z",
        begin: 0,
        end: 18_446_744_073_709_551_615,
    };
    let expected = concat!(
        "<org_name>&lt;\"a\"&amp;'b'&gt;</org_name><email>&amp;amp;</email>",
        "<extra_contact_info> ;&lt;x@y&gt;~ </extra_contact_info><report_id>Ab9Z</report_id>",
        "<date_range><begin>0</begin><end>18446744073709551615</end></date_range>"
    );
    assert_eq!(metadata(reporter), expected);
}

#[test]
fn point_223_4096_octets_before_entities() {
    let text: &'static [u8] = vec![b'&'; 4096].leak();
    let reporter = Reporter {
        organization: text,
        email: text,
        contact: text,
        ..day().reporter
    };
    let entities = "&amp;".repeat(4096);
    let expected = format!(
        "<org_name>{entities}</org_name><email>{entities}</email>\
         <extra_contact_info>{entities}</extra_contact_info><report_id>r7</report_id>"
    );
    assert!(metadata(reporter).starts_with(&expected));
}

#[test]
fn point_95_times_and_ids_at_their_limits() {
    let id: &'static [u8] = vec![b'z'; 64].leak();
    let reporter = Reporter {
        id,
        begin: 7,
        end: 7,
        ..day().reporter
    };
    let expected = format!(
        "<report_id>{}</report_id><date_range><begin>7</begin><end>7</end></date_range>",
        "z".repeat(64)
    );
    assert!(metadata(reporter).ends_with(&expected));
}

/// What is said of the policy, where this is the text at example.com.
fn published(policy: &str) -> String {
    let day = Day {
        policy: policy.to_string(),
        ..day()
    };
    let text = day.text();
    let part = between(&text, "<policy_published>", "</policy_published>");
    part.strip_prefix("<domain>example.com</domain>")
        .expect("the domain first")
        .to_string()
}

#[test]
fn point_148_defaults_and_absent_policies() {
    let plain = "<p>none</p><adkim>r</adkim><aspf>r</aspf><testing>n</testing>";
    assert_eq!(published("v=DMARC1; p=none"), plain);
    assert_eq!(
        published("v=DMARC1; p=none; adkim=x; aspf=r; t=maybe; psd=y; fo=1"),
        plain
    );
    assert_eq!(
        published("v=DMARC1; p=quarantine; sp=reject; adkim=s"),
        "<p>quarantine</p><sp>reject</sp><adkim>s</adkim><aspf>r</aspf><testing>n</testing>"
    );
    assert_eq!(
        published("v=DMARC1; p=reject; np=none; aspf=S"),
        "<p>reject</p><np>none</np><adkim>r</adkim><aspf>s</aspf><testing>n</testing>"
    );
}

/// "all three policies none if not usable"; "other tags stay".
#[test]
fn point_149_policies_that_are_not_usable() {
    let none = "<p>none</p><sp>none</sp><np>none</np>";
    let plain = format!("{none}<adkim>r</adkim><aspf>r</aspf><testing>n</testing>");
    for policy in [
        "v=DMARC1",
        "v=DMARC1; p=often",
        "v=DMARC1; sp=reject; np=reject",
        "v=DMARC1; p=reject; sp=often",
        "v=DMARC1; p=reject; np=often; rua=mailto:r@example.com",
    ] {
        assert_eq!(published(policy), plain, "{policy}");
    }
    let others = format!("{none}<adkim>s</adkim><aspf>s</aspf><testing>y</testing>");
    assert_eq!(published("v=DMARC1; p=x; adkim=s; aspf=s; t=y"), others);
    // "t=y doesn't step the published p".
    assert_eq!(
        published("v=DMARC1; p=reject; sp=quarantine; t=y"),
        "<p>reject</p><sp>quarantine</sp><adkim>r</adkim><aspf>r</aspf><testing>y</testing>"
    );
}

/// The domain of the list as it is written.
fn policy_domain(domain: &[u8]) -> String {
    let day = Day {
        list: handed(domain),
        ..day()
    };
    between(&day.text(), "<policy_published><domain>", "</domain><p>").to_string()
}

#[test]
fn the_lists_domain_in_lower_case() {
    assert_eq!(policy_domain(b"Example.COM"), "example.com");
    let long = longest();
    assert_eq!(policy_domain(long.as_bytes()), long.to_lowercase());
    let cleared = Day {
        list: cleared(b"News.Example."),
        ..day()
    };
    assert!(cleared.text().contains("<domain>news.example</domain><p>"));
}

/// What is evaluated in a row of this disposition and these flags.
fn evaluated(disposition: u8, dkim: u8, spf: u8) -> String {
    let mut day = day();
    let seen = &mut day.rows[0].seen;
    (seen.disposition, seen.dkim, seen.spf) = (disposition, dkim, spf);
    let text = day.text();
    let part = between(
        &text,
        "<policy_evaluated><disposition>",
        "</spf></policy_evaluated>",
    );
    part.replace("</disposition><dkim>", " ")
        .replace("</dkim><spf>", " ")
}

#[test]
fn point_151_dispositions() {
    assert_eq!(evaluated(0, 0, 0), "none fail fail");
    assert_eq!(evaluated(0, 1, 0), "pass pass fail");
    assert_eq!(evaluated(0, 0, 1), "pass fail pass");
    assert_eq!(evaluated(0, 1, 1), "pass pass pass");
    assert_eq!(evaluated(1, 0, 0), "quarantine fail fail");
    assert_eq!(evaluated(1, 1, 0), "quarantine pass fail");
    assert_eq!(evaluated(2, 0, 0), "reject fail fail");
    assert_eq!(evaluated(2, 1, 1), "reject pass pass");
}

/// "A flag ... is set where it is not 0"; a disposition of another number "is reported
/// as none".
#[test]
fn rows_of_any_octets() {
    for flag in [2, 7, 128, 255] {
        assert_eq!(evaluated(0, flag, 0), "pass pass fail");
        assert_eq!(evaluated(2, 0, flag), "reject fail pass");
    }
    for disposition in [3, 4, 7, 128, 255] {
        assert_eq!(evaluated(disposition, 0, 0), "none fail fail");
        assert_eq!(evaluated(disposition, 0, 1), "pass fail pass");
    }
    let mut spare = day();
    spare.rows[0].seen.spare = 255;
    assert_eq!(spare.text(), day().text());
}

/// A source as it is written.
fn source(octets: [u8; 16]) -> String {
    let mut day = day();
    day.rows[0].seen.source = octets;
    between(&day.text(), "<source_ip>", "</source_ip>").to_string()
}

/// An address of eight groups.
fn groups(groups: [u16; 8]) -> [u8; 16] {
    let octets: Vec<u8> = groups
        .iter()
        .flat_map(|group| group.to_be_bytes())
        .collect();
    octets.try_into().expect("16 octets")
}

#[test]
fn point_159_addresses() {
    let mapped = |last: [u8; 4]| {
        let mut octets = groups([0, 0, 0, 0, 0, 65_535, 0, 0]);
        octets[12..].copy_from_slice(&last);
        source(octets)
    };
    assert_eq!(mapped([192, 0, 2, 1]), "192.0.2.1");
    assert_eq!(mapped([0, 0, 0, 0]), "0.0.0.0");
    assert_eq!(mapped([255, 100, 99, 10]), "255.100.99.10");
    assert_eq!(mapped([9, 200, 20, 109]), "9.200.20.109");
    assert_eq!(source(groups([0; 8])), "0:0:0:0:0:0:0:0");
    assert_eq!(source(groups([0, 0, 0, 0, 0, 0, 0, 1])), "0:0:0:0:0:0:0:1");
    let documented = groups([0x2001, 0xdb8, 0, 0, 0, 0, 0, 1]);
    assert_eq!(source(documented), "2001:db8:0:0:0:0:0:1");
    let wide = groups([0xabcd, 0xef01, 0x10, 0x100, 0x1000, 0xf, 0xff, 0xffff]);
    assert_eq!(source(wide), "abcd:ef01:10:100:1000:f:ff:ffff");
    // Nearly mapped.
    let compatible = groups([0, 0, 0, 0, 0, 0, 0xc000, 0x201]);
    assert_eq!(source(compatible), "0:0:0:0:0:0:c000:201");
    let translated = groups([0, 0, 0, 0, 0xffff, 0, 0xc000, 0x201]);
    assert_eq!(source(translated), "0:0:0:0:ffff:0:c000:201");
    let near = groups([0, 0, 0, 0, 0, 0xfffe, 0xc000, 0x201]);
    assert_eq!(source(near), "0:0:0:0:0:fffe:c000:201");
    let first = groups([1, 0, 0, 0, 0, 0xffff, 0xc000, 0x201]);
    assert_eq!(source(first), "1:0:0:0:0:ffff:c000:201");
}

#[test]
fn counts() {
    for (count, written) in [
        (1, "1"),
        (10, "10"),
        (1_000_000, "1000000"),
        (4_294_967_295, "4294967295"),
    ] {
        let mut day = day();
        day.rows[0].count = count;
        let expected = format!("</source_ip><count>{written}</count><policy_evaluated>");
        assert!(day.text().contains(&expected));
    }
}

/// What is written in the results of the one row.
fn results(members: &[Vec<u8>]) -> String {
    let text = day().with_set(members).text();
    between(&text, "<auth_results>", "</auth_results></record>").to_string()
}

#[test]
fn point_152_an_empty_set() {
    assert!(day()
        .with_set(&[])
        .text()
        .contains("<auth_results></auth_results></record>"));
}

#[test]
fn point_152_dkim_before_spf_in_list_order() {
    let members = [
        member(1, 0, "B", "b.example"),
        member(0, 2, "not.written", "Spf.Example."),
        member(1, 2, "A.", "a.example."),
        member(1, 1, "B", "b.example"),
    ];
    let expected = concat!(
        "<dkim><domain>b.example</domain><selector>b</selector><result>fail</result></dkim>",
        "<dkim><domain>a.example</domain><selector>a</selector>",
        "<result>temperror</result></dkim>",
        "<dkim><domain>b.example</domain><selector>b</selector><result>pass</result></dkim>",
        "<spf><domain>spf.example</domain><result>temperror</result></spf>"
    );
    assert_eq!(results(&members), expected);
    let alone = "<spf><domain>d</domain><result>pass</result></spf>";
    assert_eq!(results(&[member(0, 1, "", "d")]), alone);
}

#[test]
fn sixteen_identifiers() {
    let numbers = 0..16;
    let selectors = numbers.clone().map(|number| format!("s{number}"));
    let members: Vec<_> = selectors.map(|own| member(1, 1, &own, "d")).collect();
    let expected: String = numbers
        .map(|number| {
            format!(
                "<dkim><domain>d</domain><selector>s{number}</selector>\
                 <result>pass</result></dkim>"
            )
        })
        .collect();
    assert_eq!(results(&members), expected);
}

/// A selector is taken as a domain, so it may have dots and 253 octets, and lose one
/// dot.
#[test]
fn selectors_and_domains_at_their_limits() {
    let long = longest();
    let lower = long.to_lowercase();
    let dotted = format!("{long}.");
    let expected = format!(
        "<dkim><domain>{lower}</domain><selector>{lower}</selector><result>pass</result></dkim>"
    );
    assert_eq!(results(&[member(1, 1, &long, &long)]), expected);
    assert_eq!(results(&[member(1, 1, &dotted, &dotted)]), expected);
    let author = Day {
        authors: authors(&[&dotted]),
        ..day()
    };
    let expected = format!("<identifiers><header_from>{lower}</header_from></identifiers>");
    assert!(author.text().contains(&expected));
}

/// Each record's source, count, author and first domain.
fn records(day: &Day) -> Vec<[String; 4]> {
    let text = day.text();
    let parts = text.split("<record>").skip(1);
    let words = parts.map(|part| {
        let word = |begin, end| between(part, begin, end).to_string();
        [
            word("<source_ip>", "</source_ip>"),
            word("<count>", "</count>"),
            word("<header_from>", "</header_from>"),
            word("<domain>", "</domain>"),
        ]
    });
    words.collect()
}

#[test]
fn rows_with_a_count_in_list_order() {
    let mut day = day();
    let own = |last: u8, count: u32, author: u32, set: u32| {
        let mut own = row(count);
        own.seen.source[15] = last;
        (own.seen.author, own.seen.set) = (author, set);
        own
    };
    day.rows = vec![
        own(9, 5, 1, 1),
        own(8, 0, 7, 7),
        own(7, 6, 0, 0),
        own(9, 5, 1, 1),
        own(1, 7, 0, 1),
    ];
    day.authors = authors(&["A.example", "b.example."]);
    day.sets = [
        set(&[member(0, 0, "", "c")]),
        set(&[member(1, 0, "s", "d")]),
    ]
    .concat();
    let expected = [
        ["192.0.2.9", "5", "b.example", "d"],
        ["192.0.2.7", "6", "a.example", "c"],
        ["192.0.2.9", "5", "b.example", "d"],
        ["192.0.2.1", "7", "a.example", "d"],
    ];
    assert_eq!(
        records(&day),
        expected.map(|words| words.map(str::to_string))
    );
}

#[test]
fn point_121_rows_past_the_256th_are_not_reported() {
    for (lent, written) in [(1, 1), (255, 255), (256, 256), (257, 256), (300, 256)] {
        let mut day = day();
        day.rows = (1..=lent).map(row).collect();
        let records = records(&day);
        assert_eq!(records.len(), written);
        let last = records.last().map(|words| words[1].clone());
        assert_eq!(last, Some(written.to_string()));
    }
}

/// Reading 225: 256 rows of 16 DKIM identifiers; every text, number, word and domain as
/// long as can be.
#[test]
fn point_225_the_longest_report() {
    let text: &'static [u8] = vec![b'&'; 4096].leak();
    let id: &'static [u8] = vec![b'z'; 64].leak();
    let long = longest();
    let mut row = row(4_294_967_295);
    row.seen.source = groups([0xffff; 8]);
    row.seen.disposition = 1;
    let members: Vec<_> = (0..16).map(|_| member(1, 2, &long, &long)).collect();
    let longest = Day {
        list: cleared(long.as_bytes()),
        rows: vec![row; 256],
        authors: authors(&[&long]),
        sets: set(&members),
        policy: "v=DMARC1; p=quarantine; sp=quarantine; np=quarantine".to_string(),
        reporter: Reporter {
            organization: text,
            email: text,
            contact: text,
            id,
            begin: u64::MAX,
            end: u64::MAX,
        },
    };
    assert_eq!(longest.text().len(), 2_592_802);
    assert_eq!(longest.lent(0).0, Err(refusal(10, 2_592_802)));
}
