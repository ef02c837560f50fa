//! The test vectors: lines written by hand from document 01 and the readings,
//! found by their cases.

use std::collections::BTreeMap;

use crate::octets::tx;
use evaluator::domain::fault;
use evaluator::txt::Status;
use sheets::programs::vectors::{cases, line};
use sheets::programs::vectors::{AnswerCase, Case, FieldCase, Method, NameCase};

/// A case, and its line.
type Vector = (Case, String);

fn vectors() -> Vec<Vector> {
    let with_line = |case: Case| {
        let line = line(&case);
        (case, line)
    };
    cases().into_iter().map(with_line).collect()
}

/// Checks the line of a case, which must be there.
fn check(vectors: &[Vector], case: &Case, expected: &str) {
    let found = vectors.iter().find(|(own, _)| own == case);
    let (_, line) = found.unwrap_or_else(|| panic!("no case {case:?}"));
    assert_eq!(line, expected, "{case:?}");
}

/// Status, scratch size, bytes.
fn answer(status: Status, scratch: u16, bytes: &[u8]) -> Case {
    Case::Answer(AnswerCase {
        status,
        scratch,
        bytes: bytes.to_vec(),
    })
}

/// The words of a record's settings: the defaults but for these.
fn settings(changed: &str) -> String {
    let defaults = "p=absent sp=absent np=absent adkim=r aspf=r psd=u t=n reports=no";
    let own = |default: &str| {
        let name = default.split('=').next();
        let mut changed = changed.split(' ');
        let found = changed.find(|word| word.split('=').next() == name);
        found.unwrap_or(default).to_string()
    };
    defaults.split(' ').map(own).collect::<Vec<_>>().join(" ")
}

#[test]
fn policy_texts() {
    // Text; `none`, or the settings that are not at their defaults; rua text.
    let table: [(&[u8], &str, &str); 17] = [
        // 35
        (b" v=DMARC1", "none", "0:"),
        (b"v=DMARC1\r\n", "none", "0:"),
        (b"V = DMARC1 ", "", "0:"),
        // 37
        (b"v=DMARC1; p=reject; sp=no\tne", "p=reject", "0:"),
        (b"v=DMARC1; p=reject; sp=none\x80", "p=reject", "0:"),
        (b"v=DMARC1; p=reject; sp=none~", "p=reject sp=invalid", "0:"),
        (b"v=DMARC1;p=\treject", "p=reject", "0:"),
        // 38
        (b"v=DMARC1; p=reject; sp=", "p=reject", "0:"),
        // 39
        (b"v=DMARC1; p==reject", "p=invalid", "0:"),
        // 42
        (b"v=DMARC1; adkim=strict; aspf=strict", "", "0:"),
        (b"v=DMARC1; t=Y", "t=y", "0:"),
        // Marked sheets: E, Y and 12.
        (
            b"v=DMARC1; p=reject; sp=quarantine; np=reject; aspf=s",
            "p=reject sp=quarantine np=reject aspf=s",
            "0:",
        ),
        (b"v=DMARC1; p=reject; psd=y", "p=reject psd=y", "0:"),
        (
            b"v=DMARC1; p=often; rua=mailto:r@example.com",
            "p=invalid reports=yes",
            "20:mailto:r@example.com",
        ),
        // 45, 46, 50
        (
            b"v=DMARC1; rua=, ,mailto:r@e.com",
            "reports=yes",
            "17:, ,mailto:r@e.com",
        ),
        (
            b"v=DMARC1; p=often; rua=mailto:r@example.com!10m",
            "p=invalid",
            "24:mailto:r@example.com!10m",
        ),
        (
            b"v=DMARC1; p=none; rua=mailto:a;b@c",
            "p=none reports=yes",
            "8:mailto:a",
        ),
    ];
    policies(&table);
}

/// Checks the lines of policy texts.
fn policies(table: &[(&[u8], &str, &str)]) {
    let vectors = vectors();
    for (text, changed, rua) in table {
        let words = match *changed {
            "none" => "none".to_string(),
            changed => settings(changed),
        };
        let case = Case::Policy(text.to_vec());
        check(&vectors, &case, &format!("policy {words} rua={rua}"));
    }
}

#[test]
fn one_tag_twice() {
    // As above, by reading 125.
    let table: [(&[u8], &str, &str); 19] = [
        (b"v=DMARC1; p=none; p=reject", "none", "0:"),
        (b"v=DMARC1; p=often; p=reject", "none", "0:"),
        (b"v=DMARC1; P=none; p=reject", "none", "0:"),
        (b"v=DMARC1; V=x", "none", "0:"),
        (b"v=DMARC1; v=DMARC1; p=none", "none", "0:"),
        (b"v=DMARC1; v=DMARC2; p=none", "none", "0:"),
        (b"v=DMARC1; v; v=; p=none", "p=none", "0:"),
        (b"v=DMARC1; foo=1; FOO=2", "none", "0:"),
        (b"v=DMARC1; fo=1; fo=1", "none", "0:"),
        (b"v=DMARC1; p=none; x=1; y=2; z=3; x=4", "none", "0:"),
        (
            b"v=DMARC1; x=1; xx=2; xxx=3; y=1; xy=2; yx=3; p=none",
            "p=none",
            "0:",
        ),
        (b"v=DMARC1;\tp =none;p\t=none", "none", "0:"),
        (b"v=DMARC1; sp=; sp=none", "sp=none", "0:"),
        (b"v=DMARC1; p=reject; p=none\x7f; p=\x80", "p=reject", "0:"),
        (b"v=DMARC1; p=reject; p=~", "none", "0:"),
        (b"v=DMARC1; =x; =y; ==; p=none", "p=none", "0:"),
        (b"v=DMARC1; p=none; psd=y; psd=y", "none", "0:"),
        (b"v=DMARC1; rua=a:b; rua=cc:dd", "none", "0:"),
        (
            b"v=DMARC1; rua=; rua=a:\x80; rua=cc:dd",
            "reports=yes",
            "5:cc:dd",
        ),
    ];
    policies(&table);
}

/// The long texts of many names, by reading 125: those that end in a name that
/// came before are none.
#[test]
fn lists_of_names() {
    let mut seen = BTreeMap::new();
    for (case, line) in vectors() {
        let Case::Policy(body) = case else {
            continue;
        };
        let Some(rest) = body.strip_prefix(b"v=DMARC1;a=1;b=1;c=1;".as_slice()) else {
            continue;
        };
        let last = rest.split(|octet| *octet == b';').next_back();
        let last = last.unwrap_or_default().escape_ascii().to_string();
        let none = line == "policy none rua=0:";
        *seen.entry((body.len(), last, none)).or_insert(0) += 1;
    }
    for (last, none) in [("a=1", true), ("V=1", true), ("a=", false)] {
        for octets in [130, 700, 4096] {
            let key = (octets, last.to_string(), none);
            assert_eq!(seen.get(&key), Some(&1), "{key:?} of {seen:#?}");
        }
    }
    assert!(seen.contains_key(&(4096, "ZZ=1".to_string(), true)));
    assert!(seen.contains_key(&(130, "ZZ=1".to_string(), false)));
    assert!(seen.contains_key(&(700, "zzz=1".to_string(), true)));
    let alone = |key: &&(usize, String, bool)| key.0 == 4096 && !key.2;
    assert_eq!(seen.keys().filter(alone).count(), 2);
}

#[test]
fn answers() {
    let two = [tx(&[b"ab"]), tx(&[b"v=DMARC1; p=none"])].concat();
    let identical = tx(&[b"v=DMARC1; p=none"]).repeat(2);
    let fo: &[u8] = b"v=DMARC1;fo=1;fo=1";
    let good: &[u8] = b"v=DMARC1; p=reject; t=y";
    let beside = |texts: &[&[u8]]| {
        let records = texts.iter().map(|text| tx(&[text]));
        answer(Status::Records, 4096, &records.collect::<Vec<_>>().concat())
    };
    let sixteenth = [tx(&[b"v=DMARC1; p=none"]).repeat(15), b"TX\0\0".to_vec()].concat();
    // An untouched scratch of n octets has the sum 255 n (n + 1) / 2, less a
    // multiple of 65,521: 29,025 for 4,096 and 14,025 for 10.
    let table: [(Case, &str); 13] = [
        // 22
        (answer(Status::Error, 0, b""), "refused 10 at 4096 scratch=0:0:"),
        (answer(Status::Error, 4096, b""), "error scratch=0:29025:"),
        // 23
        (answer(Status::None, 4096, &[b'X'; 5000]), "none scratch=0:29025:"),
        // 24
        (answer(Status::Records, 10, b"TX"), "refused 6 at 0 scratch=0:14025:"),
        (
            answer(Status::Records, 4096, &sixteenth),
            "refused 6 at 0 scratch=0:29025:",
        ),
        // 26
        (
            answer(Status::Records, 4096, &tx(&[b"a"]).repeat(17)),
            "refused 6 at 0 scratch=0:29025:",
        ),
        // 28
        (answer(Status::Records, 4096, b""), "none scratch=0:29025:"),
        // 29: `ab` takes away 158 and 2 times 157, and so on.
        (
            answer(Status::Records, 4096, &two),
            "record p=none sp=absent np=absent adkim=r aspf=r psd=u t=n reports=no \
             scratch=18:65295:6162763d444d415243313b20703d6e6f6e65",
        ),
        // 48
        (
            answer(Status::Records, 4096, &identical),
            "none scratch=32:3424:763d444d415243313b20703d6e6f6e65763d444d415243313b20703d6e6f6e65",
        ),
        // 49
        (
            answer(Status::Records, 4096, &tx(&[b"v=DMARC1"])),
            "record p=absent sp=absent np=absent adkim=r aspf=r psd=u t=n reports=no \
             scratch=8:22275:763d444d41524331",
        ),
        // 126: the scratch holds the texts that are dropped too.
        (
            beside(&[fo]),
            "none scratch=18:63563:763d444d415243313b666f3d313b666f3d31",
        ),
        (
            beside(&[fo, good]),
            "record p=reject sp=absent np=absent adkim=r aspf=r psd=u t=y reports=no \
             scratch=41:10360:763d444d415243313b666f3d313b666f3d31763d444d415243313b20703d72656a6563743b20743d",
        ),
        (
            beside(&[good, fo, good]),
            "none scratch=64:59283:763d444d415243313b20703d72656a6563743b20743d79763d444d415243313b666f3d313b666f3d",
        ),
    ];
    let vectors = vectors();
    for (case, line) in table {
        check(&vectors, &case, &format!("answer {line}"));
    }
}

/// Document 01's example with this begin, id and output size.
fn example(begin: u64, named: u8, id: &[u8], size: u16) -> Case {
    name_case([b"gate.example", b"example.com"], begin, named, id, size)
}

/// Receiver and policy domain, then as in the example.
fn name_case(domains: [&[u8]; 2], begin: u64, named: u8, id: &[u8], size: u16) -> Case {
    let [receiver, policy_domain] = domains.map(<[u8]>::to_vec);
    Case::FileName(NameCase {
        receiver,
        policy_domain,
        begin,
        end: 1_700_086_399,
        named,
        id: id.to_vec(),
        size,
    })
}

#[test]
fn file_names() {
    let vectors = vectors();
    let begin = 1_700_000_000;
    let table: [(Case, &str); 5] = [
        (
            example(begin, 1, b"r7", 53),
            "wrote 53 out=53:32096:gate.example!example.com!1700000000!1700086399!r7.xml",
        ),
        // 255 (1 + 2 + ... + 52) is 351,390, and 23,785 after 5 times 65,521.
        (
            example(begin, 1, b"r7", 52),
            "refused 10 at 53 out=0:23785:",
        ),
        (example(begin, 1, b"r7", 0), "refused 10 at 53 out=0:0:"),
        (
            example(begin, 0, b"r7", 700),
            "wrote 50 out=50:15404:gate.example!example.com!1700000000!1700086399.xml",
        ),
        (example(begin, 1, b"", 0), "refused 11 at 0 out=0:0:"),
    ];
    for (case, line) in table {
        check(&vectors, &case, &format!("file {line}"));
    }
}

/// Readings 134 and 135.
#[test]
fn file_names_with_final_dots() {
    let vectors = vectors();
    let line_of = |receiver: &[u8], policy_domain: &[u8]| {
        let case = name_case([receiver, policy_domain], 1_700_000_000, 1, b"r7", 700);
        let found = vectors.iter().find(|(own, _)| *own == case);
        found.map(|(_, line)| line.clone()).expect("a case")
    };
    let expected = line_of(b"gate.example", b"example.com");
    assert!(expected.ends_with(":gate.example!example.com!1700000000!1700086399!r7.xml"));
    assert_eq!(line_of(b"gate.example.", b"example.com"), expected);
    assert_eq!(line_of(b"gate.example", b"example.com."), expected);
    assert_eq!(line_of(b"GATE.example.", b"Example.com."), expected);
    // An untouched memory of 700 octets has the sum 255 (1 + 2 + ... + 700), less a
    // multiple of 65,521.
    let refused = format!("file refused 11 at 0 out=0:{}:", 255 * 350 * 701 % 65_521);
    for bad in [".", "..", "a..", "a.b..", ".a."] {
        assert_eq!(line_of(bad.as_bytes(), b"example.com"), refused, "{bad}");
        assert_eq!(line_of(b"gate.example", bad.as_bytes()), refused, "{bad}");
    }
}

/// DKIM given and aligned, SPF given and aligned, each 0 or 1, and the size.
fn field([dkim, dkim_aligned, spf, spf_aligned, size]: [u8; 5]) -> Case {
    let method = |given, aligned| Method {
        given: given == 1,
        aligned: aligned == 1,
    };
    Case::Field(FieldCase {
        dkim: method(dkim, dkim_aligned),
        spf: method(spf, spf_aligned),
        size,
    })
}

#[test]
fn fields() {
    let head = "4964656e746974792d416c69676e6d656e743a20";
    let written = |methods: &str| format!("{head}{methods}0d0a");
    let vectors = vectors();
    let table: [([u8; 5], String); 7] = [
        // 100: none 26, dkim 26, spf 25, both 31.
        (
            [1, 1, 1, 1, 26],
            format!("wrote 26 out=26:29630:{}", written("6e6f6e65")),
        ),
        (
            [1, 0, 1, 1, 26],
            format!("wrote 26 out=26:29409:{}", written("646b696d")),
        ),
        (
            [1, 1, 1, 0, 25],
            format!("wrote 25 out=25:27126:{}", written("737066")),
        ),
        (
            [1, 0, 1, 0, 31],
            format!("wrote 31 out=31:40655:{}", written("646b696d2c20737066")),
        ),
        (
            [1, 0, 1, 0, 30],
            "refused 10 at 31 out=0:53054:".to_string(),
        ),
        // 99: SPF alone, aligned.
        (
            [0, 0, 1, 1, 26],
            format!("wrote 26 out=26:29630:{}", written("6e6f6e65")),
        ),
        // No identifier was given: 9 before 10.
        ([0, 0, 0, 0, 0], "refused 9 at 0 out=0:0:".to_string()),
    ];
    for (given, line) in table {
        check(&vectors, &field(given), &format!("field {line}"));
    }
}

#[test]
fn labels() {
    let vectors = vectors();
    let table: [(&[u8], &str); 9] = [
        (b"com", "labels=1 rounds=3 begins=0,0,0,0,0,0,0,0"),
        (b"EXAMPLE.com", "labels=2 rounds=11 begins=8,0,0,0,0,0,0,0"),
        (
            b"_dmarc.example.com",
            "labels=3 rounds=18 begins=15,7,0,0,0,0,0,0",
        ),
        (b"127.0.0.1", "labels=4 rounds=9 begins=8,6,4,0,0,0,0,0"),
        (
            b"a.bb.ccc.dddd.eeeee.ffffff.ggggggg",
            "labels=7 rounds=34 begins=27,20,14,9,5,2,0,0",
        ),
        (
            b"a.bb.ccc.dddd.eeeee.ffffff.ggggggg.hhhhhhhh",
            "labels=8 rounds=43 begins=35,27,20,14,9,5,2,0",
        ),
        (
            b"-.-.-.-.-.-.-.-.-",
            "labels=9 rounds=17 begins=16,14,12,10,8,6,4,2",
        ),
        (
            b"0.1.2.3.4.5.6.7.8.9",
            "labels=10 rounds=19 begins=18,16,14,12,10,8,6,4",
        ),
        (
            b"a.b.c.d.e.f.g.h.i.j.mail.example.com",
            "labels=13 rounds=36 begins=33,25,20,18,16,14,12,10",
        ),
    ];
    for (domain, line) in table {
        check(&vectors, &Case::Labels(domain.to_vec()), line);
    }
}

/// The labels of a domain.
fn split(body: &[u8]) -> Vec<&[u8]> {
    body.split(|octet| *octet == b'.').collect()
}

/// The domains whose labels are counted, each of which keeps the rule.
fn counted_domains() -> Vec<(Vec<u8>, String)> {
    let counted = vectors().into_iter().filter_map(|(case, line)| match case {
        Case::Labels(domain) => Some((domain, line)),
        _ => None,
    });
    let domains: Vec<(Vec<u8>, String)> = counted.collect();
    for (domain, _) in &domains {
        assert_eq!(fault(domain), None, "{}", domain.escape_ascii());
    }
    domains
}

/// Readings 127 and 128, from the lengths of the labels.
#[test]
fn lines_of_labels() {
    for (body, line) in counted_domains() {
        let labels = split(&body);
        let begin = |count: usize| {
            let before = labels.len().saturating_sub(count);
            let octets = labels.iter().take(before).map(|label| label.len() + 1);
            octets.sum::<usize>().to_string()
        };
        let begins = (1..=8).map(begin).collect::<Vec<_>>().join(",");
        let (count, octets) = (labels.len(), body.len());
        let expected = format!("labels={count} rounds={octets} begins={begins}");
        assert_eq!(line, expected, "{}", body.escape_ascii());
    }
}

#[test]
fn domains_of_every_shape() {
    let domains = counted_domains();
    let there = |what: &dyn Fn(&[u8]) -> bool| domains.iter().filter(|(own, _)| what(own)).count();
    for labels in 1..=127 {
        let of_count = |own: &[u8]| split(own).len() == labels;
        let single = |own: &[u8]| of_count(own) && own.len() == 2 * labels - 1;
        assert!(there(&single) > 0, "{labels} labels of one octet");
        let longer = |own: &[u8]| of_count(own) && own.len() > 2 * labels - 1;
        assert!(labels == 127 || there(&longer) > 0, "{labels} labels");
    }
    for octets in [245, 246, 247, 252, 253] {
        assert!(there(&|own| own.len() == octets) >= 6, "{octets} octets");
    }
    assert!(there(&|own| own.len() == 63 && split(own).len() == 1) > 0);
    let in_turn = |own: &[u8]| {
        let labels = split(own);
        let lengths = labels.windows(2).map(|two| (two[0].len(), two[1].len()));
        labels.len() > 3
            && lengths
                .into_iter()
                .all(|two| [(1, 63), (63, 1)].contains(&two))
    };
    assert!(there(&in_turn) >= 4);
    for octet in (0..128_u8).filter(|octet| fault(&[*octet]).is_none()) {
        assert!(there(&|own| own.contains(&octet)) > 0, "octet {octet}");
    }
}

/// The first word of a case's line, but for labels.
fn kind(case: &Case) -> &'static str {
    match case {
        Case::Policy(_) => "policy",
        Case::Answer(_) => "answer",
        Case::FileName(_) => "file",
        Case::Field(_) => "field",
        Case::Labels(_) => "labels",
    }
}

#[test]
fn enough_cases_of_each_kind() {
    let mut counts: BTreeMap<&str, usize> = BTreeMap::new();
    for (case, line) in vectors() {
        *counts.entry(kind(&case)).or_default() += 1;
        assert!(line.starts_with(kind(&case)), "{line}");
        let printable = |octet: u8| (32..=126).contains(&octet);
        assert!(line.bytes().all(printable), "{line}");
    }
    let least = [
        ("answer", 60),
        ("field", 24),
        ("file", 30),
        ("labels", 400),
        ("policy", 80),
    ];
    assert_eq!(counts.len(), least.len());
    for (kind, least) in least {
        assert!(counts[kind] >= least, "{} of {kind}", counts[kind]);
    }
}

#[test]
fn all_flags_at_size_64() {
    let vectors = vectors();
    for flags in 0..16_u8 {
        let flag = |bit: u8| flags >> bit & 1;
        let case = field([flag(3), flag(2), flag(1), flag(0), 64]);
        let there = vectors.iter().any(|(own, _)| *own == case);
        assert!(there, "{case:?}");
    }
}

#[test]
fn refused_calls_leave_lent_memory_unchanged() {
    for (_, line) in vectors() {
        if line.contains(" refused ") {
            assert!(line.contains("=0:") && line.ends_with(':'), "{line}");
        }
    }
}

#[test]
fn the_same_cases_each_time() {
    assert!(cases() == cases());
}
