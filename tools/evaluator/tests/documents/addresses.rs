//! Ask 11 of document 02, readings 171 to 178, 211, 216 and 218, and RFC 9990's
//! section 4: what an address check comes to.

use crate::address_case::{address, example};
use crate::case::refusal;
use crate::octets::tx;
use evaluator::address::entry::{host, AddressFault};
use evaluator::address::{Address, Confirmation, Outcome, Progress, Reason};
use evaluator::policy::entries::EntryFault;

const CONFIRMING: &str = "blue.example.com._report._dmarc.red.example.net";

/// The names of the example's walks where no name has any record.
const WALKS: [&str; 6] = [
    "_dmarc.blue.example.com",
    "_dmarc.example.com",
    "_dmarc.com",
    "_dmarc.red.example.net",
    "_dmarc.example.net",
    "_dmarc.net",
];

fn read(policy: &str, entry: &str) -> Option<(u8, usize)> {
    let read = Address::read(policy.as_bytes(), entry.as_bytes());
    read.err().map(|own| (own.number, own.place))
}

#[test]
fn the_example_of_rfc_9990() {
    let case = example(&["v=DMARC1"]);
    assert_eq!(case.outcome(), Outcome::Confirmed);
    assert_eq!(case.names(), [&WALKS[..], &[CONFIRMING]].concat());
    let marks: Vec<(usize, usize)> = case.run().1.iter().map(|n| (n.walk, n.place)).collect();
    let expected = [(0, 0), (0, 5), (0, 13), (1, 0), (1, 4), (1, 12), (2, 0)];
    assert_eq!(marks, expected);
    // "A trailing ";" is optional."
    assert_eq!(example(&["v=DMARC1;"]).outcome(), Outcome::Confirmed);
    // A wildcard's answer is an answer like any other.
    let wild = address("any.test", "mailto:a@example.com")
        .texts("any.test._report._dmarc.example.com", &["v=DMARC1"]);
    assert_eq!(wild.outcome(), Outcome::Confirmed);
}

#[test]
fn point_172_equal_domains() {
    for (policy, entry) in [
        ("example.com", "mailto:a@example.com"),
        ("Example.COM", "MAILTO:a@eXample.com"),
        ("example.com.", "mailto:a@example.com"),
        ("example.com", "mailto:a@example.com."),
        ("a", "mailto:@A."),
    ] {
        let case = address(policy, entry).error("_dmarc.example.com");
        assert_eq!(case.outcome(), Outcome::Inside);
        assert!(case.names().is_empty());
        assert_eq!(case.check().reason, Some(Reason::SameDomain));
        // Without a next step (179).
        assert_eq!(case.book().result().unwrap().outcome, Outcome::Inside);
    }
}

#[test]
fn point_172_equal_organizational_domains() {
    let case = address("blue.example.com", "mailto:a@mail.example.com")
        .record("example.com", "v=DMARC1; p=none");
    assert_eq!(case.outcome(), Outcome::Inside);
    // Shared names once, and no confirming name.
    let names = [WALKS[0], WALKS[1], WALKS[2], "_dmarc.mail.example.com"];
    assert_eq!(case.names(), names);
    // The one below the other, either way.
    for (policy, host) in [
        ("example.com", "a.b.example.com"),
        ("a.b.example.com", "example.com"),
    ] {
        let case = address(policy, &format!("mailto:x@{host}"));
        let case = case.record("example.com", "v=DMARC1; p=none");
        assert_eq!(case.outcome(), Outcome::Inside, "{policy} {host}");
    }
    // A record of the start itself is no reason to pause.
    let own = address("blue.example.com", "mailto:a@red.example.com")
        .record("blue.example.com", "v=DMARC1; p=none")
        .record("red.example.com", "v=DMARC1; p=none")
        .record("com", "v=DMARC1; p=none");
    assert_eq!(own.outcome(), Outcome::Inside);
    assert_eq!(own.names().len(), 4);
}

#[test]
fn the_walks_go_by_psd_and_by_two_records() {
    let outside = |case: crate::address_case::AddressCase| {
        assert_eq!(case.outcome(), Outcome::No);
        case.names()
    };
    // psd=n at the policy domain: it is its own, and its walk ends there.
    let base = address("blue.example.com", "mailto:a@example.com");
    let base = base.record("example.com", "v=DMARC1; p=none");
    assert_eq!(base.outcome(), Outcome::Inside);
    let own = base.record("blue.example.com", "v=DMARC1; p=none; psd=n");
    let confirming = "blue.example.com._report._dmarc.example.com";
    let names = [WALKS[0], WALKS[1], WALKS[2], confirming];
    assert_eq!(outside(own), names);
    // psd=y above both: each is its own.
    let tops = address("a.example", "mailto:x@b.example").record("example", "v=DMARC1; psd=y");
    assert_eq!(outside(tops).len(), 4);
    // Two records at one name are none.
    let two = ["v=DMARC1; p=none", "v=DMARC1; p=none"];
    let twice =
        address("a.example.com", "mailto:x@b.example.com").texts("_dmarc.example.com", &two);
    assert_eq!(outside(twice).len(), 5);
    // A tag written twice: no record (216).
    let repeat = address("a.example.com", "mailto:x@b.example.com")
        .record("example.com", "v=DMARC1; p=none; p=none");
    assert_eq!(outside(repeat).len(), 5);
}

#[test]
fn errors_are_not_known_and_end_the_asking() {
    for (at, name) in WALKS.iter().chain([&CONFIRMING]).enumerate() {
        let case = example(&["v=DMARC1"]).error(name);
        assert_eq!(case.outcome(), Outcome::NotKnown, "{name}");
        assert_eq!(case.names().len(), at + 1, "{name}");
    }
    // The name shared by both walks is not asked again.
    let shared = address("a.com", "mailto:x@b.com").error("_dmarc.com");
    assert_eq!(shared.outcome(), Outcome::NotKnown);
    assert_eq!(shared.names(), ["_dmarc.a.com", "_dmarc.com"]);
    // An error that psd=n keeps from being asked does no harm.
    let behind = example(&["v=DMARC1"])
        .record("blue.example.com", "v=DMARC1; psd=n")
        .error("_dmarc.example.com")
        .error("_dmarc.com");
    assert_eq!(behind.outcome(), Outcome::Confirmed);
}

#[test]
fn point_175_what_confirms() {
    for texts in [
        &["v=DMARC1"][..],
        &["V = DMARC1 "],
        &["v=DMARC1", "v=DMARC1"],
        &["v=DMARC1; p=none", "v=DMARC1; p=reject"],
        &["junk", "", "v=DMARC1; p=often"],
        // Invalid as a whole, beside one that is not.
        &["v=DMARC1; p=none; p=none", "v=DMARC1"],
        &["v=DMARC1; rua="],
        &["v=DMARC1; psd=y"],
    ] {
        assert_eq!(example(texts).outcome(), Outcome::Confirmed, "{texts:?}");
    }
    for texts in [
        &[][..],
        &[""],
        &["v=dmarc1"],
        &[" v=DMARC1"],
        &["v=DMARC1 x"],
        &["p=none; v=DMARC1"],
        &["v=spf1 -all", "x"],
        // A tag written twice, in either case, known or not (216).
        &["v=DMARC1; p=none; P=none"],
        &["v=DMARC1; x=1; X=2"],
        &["v=DMARC1; v=DMARC1"],
        &["v=DMARC1; rua=mailto:a@red.example.net; rua=mailto:a@red.example.net"],
    ] {
        assert_eq!(example(texts).outcome(), Outcome::No, "{texts:?}");
    }
}

#[test]
fn point_174_entries_that_23_stops_have_no_host() {
    for rua in [
        "https://green.example/x",
        "mailto:a@green.example!10m",
        "mailto:green.example",
        "mailto:a@green..example",
        "mailto:a@green.example..",
        "mailto:a@green.example?subject=x",
        "mailto:",
        ",",
        " , ,",
        "a@green.example",
        "mailto: a@green.example",
        "mailto:a@[192.0.2.1]",
    ] {
        let text = format!("v=DMARC1; rua={rua}");
        assert_eq!(example(&[&text]).outcome(), Outcome::Confirmed, "{rua}");
        // They stay in the text, which is handed out whole.
        let both = format!("{rua},mailto:r@red.example.net");
        let text = format!("v=DMARC1;rua={both}");
        let blanks = both.len() - both.trim_start().len();
        let expected = (13 + blanks, both.trim_start().to_string());
        assert_eq!(example(&[&text]).replacing(), expected, "{rua}");
    }
}

#[test]
fn point_173_the_first_host_is_that_of_the_entry() {
    let by = |rua: &str| example(&[&format!("v=DMARC1; rua={rua}")]);
    for rua in [
        "mailto:x@green.example",
        "mailto:x@green.example,mailto:x@green.example",
        "mailto:x@red.example.net,mailto:x@green.example",
        "mailto:x@green.example,mailto:x@red.example.net",
        // Neither a host above nor one below is the same, nor the policy domain.
        "mailto:x@example.net",
        "mailto:x@a.red.example.net",
        "mailto:x@blue.example.com",
        "mailto:x@red.example.net?to=y@green.example",
        "mailto:x@red.example.net , , https://a , MAILTO:y@z",
    ] {
        assert_eq!(by(rua).outcome(), Outcome::No, "{rua}");
    }
    for rua in [
        "mailto:x@red.example.net",
        "MailTo:x@RED.example.NET",
        "mailto:x@red.example.net.",
        "mailto:x@green.example@red.example.net",
        "mailto:a@red.example.net,mailto:b@Red.Example.Net.",
    ] {
        assert_eq!(by(rua).replacing(), (14, rua.to_string()), "{rua}");
    }
    let reason = by("https://a, mailto:x@red.example.net,mailto:x@Green.example.");
    let Some(Reason::Outside { confirmation, .. }) = reason.check().reason else {
        panic!("inside");
    };
    let Confirmation::OtherHost {
        record: 0,
        entry: 3,
        host,
    } = confirmation
    else {
        panic!("{confirmation:?}");
    };
    assert_eq!(host.octets(), b"green.example");
}

#[test]
fn point_174_the_first_record_with_a_host_decides_alone() {
    let own = "v=DMARC1; rua=mailto:own@red.example.net";
    let again = "v=DMARC1; rua=mailto:again@red.example.net";
    let other = "v=DMARC1; rua=mailto:x@green.example";
    let stopped = "v=DMARC1; rua=https://green.example";
    let invalid = "v=DMARC1; p=none; p=none; rua=mailto:x@green.example";
    let text = |case: crate::address_case::AddressCase| case.replacing().1;
    assert_eq!(text(example(&[own, other])), "mailto:own@red.example.net");
    assert_eq!(text(example(&[own, again])), "mailto:own@red.example.net");
    assert_eq!(example(&[other, own]).outcome(), Outcome::No);
    let behind = example(&["v=DMARC1", stopped, invalid, again, other]);
    assert_eq!(text(behind), "mailto:again@red.example.net");
    assert_eq!(
        example(&["v=DMARC1", stopped, other, own]).outcome(),
        Outcome::No
    );
    assert_eq!(example(&[stopped, invalid]).outcome(), Outcome::Confirmed);
}

/// By index among all records of the answer.
#[test]
fn the_first_policy_record_is_the_one_that_agreed() {
    for (texts, record) in [
        (&["v=DMARC1"][..], 0),
        (
            &["junk", "v=DMARC1; p=none; p=none", "v=DMARC1", "v=DMARC1"],
            2,
        ),
        (&["", "v=DMARC1; rua=https://a", "v=DMARC1"], 1),
    ] {
        let Some(Reason::Outside { confirmation, .. }) = example(texts).check().reason else {
            panic!("inside");
        };
        assert_eq!(confirmation, Confirmation::Agreed { record });
    }
}

/// No book keeps an answer that cannot be read. The check afresh does not know then,
/// and never takes it for a no.
#[test]
fn unreadable_answers_are_not_known() {
    for bytes in [
        b"T".to_vec(),
        b"TX\0\0".to_vec(),
        tx(&[b"v=DMARC1"]).repeat(17),
    ] {
        for name in [CONFIRMING, WALKS[0], WALKS[5]] {
            let case = example(&["v=DMARC1"]).bytes(name, bytes.clone());
            let Progress::Verdict(verdict) = case.check().progress else {
                panic!("a name without an answer");
            };
            assert_eq!(verdict.outcome, Outcome::NotKnown, "{name}");
        }
    }
}

/// Octet by octet: what the scratch holds, and where the rua text stands in it.
#[test]
fn point_176_the_place_in_the_scratch() {
    let rua = "mailto:a@red.example.net ,\tmailto:b@RED.example.net.";
    let strings: [&[u8]; 4] = [
        b"v = DMARC1 ; x=1 ;\tRuA\t= ",
        b"",
        b" mailto:a@red.example.net ,\tmailto:b@RED.ex",
        b"ample.net. \t ; p=none",
    ];
    // A tab within makes the part not well-formed: confirmed alone.
    let bytes = [tx(&[b"ab", b"c"]), tx(&strings)].concat();
    let case = example(&[]).bytes(CONFIRMING, bytes);
    assert_eq!(case.outcome(), Outcome::Confirmed);
    // With a blank in its stead it is the list, trimmed.
    let strings = strings.map(|string| {
        let blank = |octet: &u8| if *octet == b'\t' { b' ' } else { *octet };
        string.iter().map(blank).collect::<Vec<u8>>()
    });
    let parts: Vec<&[u8]> = strings.iter().map(Vec::as_slice).collect();
    let bytes = [tx(&[b"ab", b"c"]), tx(&[b""]), tx(&parts), tx(&[b"end"])].concat();
    let case = example(&[]).bytes(CONFIRMING, bytes);
    let (verdict, _, scratch) = case.run();
    let text: &[u8] = b"abcv = DMARC1 ; x=1 ; RuA =  mailto:a@red.example.net , \
                        mailto:b@RED.example.net.   ; p=noneend";
    assert_eq!(&scratch[..text.len()], text);
    assert_eq!(scratch[text.len()..], vec![b'~'; 4096 - text.len()]);
    let (begin, length) = (29, 52);
    assert_eq!(verdict.outcome, Outcome::Replaced { begin, length });
    let expected = rua.replace('\t', " ");
    assert_eq!(case.replacing(), (begin, expected));
}

/// The last octets that an answer can have.
#[test]
fn a_place_at_the_end_of_the_scratch() {
    let rua = b"mailto:a@red.example.net";
    let last = [b"v=DMARC1;x=".as_slice(), &[b'y'; 151], b";rua=", rua].concat();
    // 15 records of one string before it, 4,096 octets in all.
    let bytes = [tx(&[&[b'j'; 255]]).repeat(15), tx(&[&last])].concat();
    assert_eq!(bytes.len(), 4096);
    let case = example(&[]).bytes(CONFIRMING, bytes);
    let (begin, text) = case.replacing();
    // 16 heads of five octets are not in the scratch.
    assert_eq!(begin, 4096 - 16 * 5 - rua.len());
    assert_eq!(text.as_bytes(), rua);
}

#[test]
fn point_177_a_confirming_name_over_253_octets() {
    // Labels of 49 octets, then one of one.
    let domain = |octets: usize, last: char| {
        let octet = |place: usize| if place % 50 == 49 { '.' } else { 'x' };
        (0..octets - 2)
            .map(octet)
            .chain(['.', last])
            .collect::<String>()
    };
    for (policy, host) in [(100, 137), (137, 100), (229, 8), (8, 229)] {
        let (policy, host) = (domain(policy, 'a'), domain(host, 'b'));
        let name = format!("{policy}._report._dmarc.{host}");
        assert_eq!(name.len(), 253);
        let case = address(&policy, &format!("mailto:a@{host}")).texts(&name, &["v=DMARC1"]);
        assert_eq!(case.outcome(), Outcome::Confirmed);
        assert_eq!(case.names().last(), Some(&name));
        let before = case.names().len() - 1;
        // One octet more.
        let longer = format!("z{policy}");
        let case = address(&longer, &format!("mailto:a@{host}"));
        let case = case.texts(&format!("z{name}"), &["v=DMARC1"]);
        assert_eq!(case.outcome(), Outcome::No);
        assert_eq!(case.names().len(), before);
        let Some(Reason::Outside { confirmation, .. }) = case.check().reason else {
            panic!("inside");
        };
        assert_eq!(confirmation, Confirmation::TooLong(254));
    }
}

#[test]
fn walks_of_long_domains() {
    // Over 246 octets neither start is asked; without records each is its own.
    let label = "x".repeat(62);
    let policy = format!("{label}.{label}.{label}.{}.a", "y".repeat(56));
    let host = format!("{label}.{label}.{label}.{}.b.", "y".repeat(56));
    assert_eq!((policy.len(), host.len()), (247, 248));
    let case = address(&policy, &format!("mailto:x@{host}"));
    assert_eq!(case.outcome(), Outcome::No);
    assert_eq!(case.names().len(), 8);
}

#[test]
fn point_178_17_names() {
    let case = address("a.b.c.d.e.f.g.h.i.one", "mailto:x@a.b.c.d.e.f.g.h.i.two");
    let names = case.names();
    assert_eq!(names.len(), 17);
    assert_eq!(
        names[16],
        "a.b.c.d.e.f.g.h.i.one._report._dmarc.a.b.c.d.e.f.g.h.i.two"
    );
    assert_eq!(case.outcome(), Outcome::No);
    let distinct: std::collections::HashSet<&String> = names.iter().collect();
    assert_eq!(distinct.len(), 17);
}

#[test]
fn refusal_11_comes_first() {
    let good = "mailto:a@b.c";
    for policy in ["", ".", "..", "a..b", "a.b..", ".a", "a b", "ü.de", "*.a"] {
        assert_eq!(read(policy, good), Some((11, 0)), "{policy}");
        assert_eq!(read(policy, "x"), Some((11, 0)), "{policy}");
    }
    let long = "a.".repeat(126);
    assert_eq!(read(&format!("{long}b"), good), None);
    assert_eq!(read(&format!("{long}b."), good), None);
    assert_eq!(read(&format!("{long}bc"), good), Some((11, 0)));
}

#[test]
fn points_171_and_218_refusal_23() {
    for entry in [
        "",
        " ",
        "a@b.c",
        "mailto:",
        "mailto:a",
        "mailto:a@",
        "mailto:a@.",
        "mailto:a@b..",
        "mailto:a@b..c",
        "mailto:a@b?subject=x",
        "mailto:a@b.c!1m",
        "mailto:a!b@c.d",
        "mailto:a@b.c,",
        ",mailto:a@b.c",
        "mailto:a,b@c.d",
        "mailto:a@b.c,mailto:a@b.c",
        "https://a@b.c",
        "mailtos:a@b.c",
        "mail:a@b.c",
        "1mailto:a@b.c",
        "mail to:a@b.c",
        "mailto :a@b.c",
        "mailto: a@b.c",
        "mailto:a b@c.d",
        "mailto:a@b .c",
        "mailto:a%4@b.c",
        "mailto:a%4x@b.c",
        "mailto:\"a\"@b.c",
        "mailto:a@b%2ec",
        "mailto:a@[192.0.2.1]",
        "mailto:a@b.c:25",
        "mailto:a@b/c",
    ] {
        assert_eq!(read("a", entry), Some((23, 0)), "{entry}");
    }
    for (entry, expected) in [
        ("mailto:@b.c", "b.c"),
        ("mailto:a@b.c", "b.c"),
        (" \tmailto:a@b.c\t ", "b.c"),
        ("MAILTO:A@B.C.", "b.c"),
        ("mailto:x@y?z=w@b", "b"),
        ("mailto:a%20b%21@b", "b"),
        ("mailto:a;b@c", "c"),
        ("mailto::@-", "-"),
        ("mailto:a@b@_dmarc.c", "_dmarc.c"),
    ] {
        let host = host(entry.as_bytes()).expect("a host");
        assert_eq!(host.octets(), expected.as_bytes(), "{entry}");
    }
    let long = format!("mailto:a@{}b", "a.".repeat(126));
    assert_eq!(read("a", &format!("{long}.")), None);
    assert_eq!(read("a", &format!("{long}c")), Some((23, 0)));
}

#[test]
fn what_23_has_first_against_an_entry() {
    for (entry, fault) in [
        ("mailto:a!,", AddressFault::Comma),
        ("https", AddressFault::Entry(EntryFault::NoColon)),
        ("https:!", AddressFault::Entry(EntryFault::Octet(b'!'))),
        ("https:a", AddressFault::OtherScheme),
        ("mailto:a", AddressFault::NoAt),
        ("mailto:a@", AddressFault::Host),
    ] {
        assert_eq!(host(entry.as_bytes()), Err(fault), "{entry}");
    }
    assert_eq!(Address::read(b"a", b"x").err(), Some(refusal(23, 0)));
}
