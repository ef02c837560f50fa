//! What is said of an address check: lines and JSON written by hand.

use crate::octets::tx;
use evaluator::address::book::AddressBook;
use evaluator::txt::Status;
use sheets::address::{advice, json, lines, AddressHanded, GivenAnswer};
use sheets::programs::checks::{random, Call, Told};

const CONFIRMING: &str = "blue.example.com._report._dmarc.red.example.net";
const OWN: &str = "no record was found, so it is the domain itself";

fn handed(policy: &str, entry: &str) -> AddressHanded {
    AddressHanded {
        policy: policy.as_bytes().to_vec(),
        entry: entry.as_bytes().to_vec(),
        ..AddressHanded::default()
    }
}

/// The example of RFC 9990, section 4.
fn example() -> AddressHanded {
    handed("blue.example.com", "mailto:reports@red.example.net")
}

fn answer(mut handed: AddressHanded, name: &str, status: Status, bytes: Vec<u8>) -> AddressHanded {
    let name = name.as_bytes().to_vec();
    let line = handed.answers.len() + 1;
    handed.answers.push(GivenAnswer {
        name,
        status,
        bytes,
        line,
    });
    handed
}

fn texts(handed: AddressHanded, name: &str, texts: &[&str]) -> AddressHanded {
    let records = texts.iter().map(|text| tx(&[text.as_bytes()]));
    let bytes = records.collect::<Vec<_>>().concat();
    answer(handed, name, Status::Records, bytes)
}

fn error(handed: AddressHanded, name: &str) -> AddressHanded {
    answer(handed, name, Status::Error, Vec::new())
}

/// All other names that are asked have no records.
fn complete(mut handed: AddressHanded) -> AddressHanded {
    loop {
        let lines = lines(&handed);
        let next = lines
            .iter()
            .find_map(|line| line.strip_prefix("next: ask "));
        let Some(name) = next else {
            return handed;
        };
        handed = answer(handed.clone(), name, Status::None, Vec::new());
    }
}

/// The lines from the outcome on.
fn outcome(handed: AddressHanded) -> Vec<String> {
    let lines = lines(&complete(handed));
    let asked = |line: &&String| !line.contains("asked _") && !line.contains("asked blue");
    lines.iter().skip(2).filter(asked).cloned().collect()
}

#[test]
fn the_example_of_rfc_9990() {
    let handed = complete(texts(example(), CONFIRMING, &["v=DMARC1"]));
    let expected = format!(
        "policy domain: blue.example.com
host of the address: red.example.net
asked _dmarc.blue.example.com: none
asked _dmarc.example.com: none
asked _dmarc.com: none
asked _dmarc.red.example.net: none
asked _dmarc.example.net: none
asked _dmarc.net: none
not inside, so it must agree: asked {CONFIRMING}: records
confirmed: record 1 at {CONFIRMING} is a policy record, and none there names an address in rua
  organizational domain of the policy domain: blue.example.com ({OWN})
  organizational domain of the host: red.example.net ({OWN})"
    );
    assert_eq!(lines(&handed).join("\n"), expected);
    let object = json(&handed).to_string();
    let name =
        |name: &str, answer: &str| format!("{{\"name\":\"{name}\",\"answer\":\"{answer}\"}}");
    let names = [
        name("_dmarc.blue.example.com", "none"),
        name("_dmarc.example.com", "none"),
        name("_dmarc.com", "none"),
        name("_dmarc.red.example.net", "none"),
        name("_dmarc.example.net", "none"),
        name("_dmarc.net", "none"),
        name(CONFIRMING, "records"),
    ];
    let expected = format!(
        "{{\"agreement\":\"confirmed\",\"policy_domain\":\"blue.example.com\",\
         \"host\":\"red.example.net\",\"names\":[{}],\"asked\":7,\
         \"organizational_domain\":\"blue.example.com\",\
         \"host_organizational_domain\":\"red.example.net\",\"reasons\":[\
         \"record 1 at {CONFIRMING} is a policy record, and none there names an address in rua\",\
         \"organizational domain of the policy domain: blue.example.com ({OWN})\",\
         \"organizational domain of the host: red.example.net ({OWN})\"],\"replaced_by\":null,\
         \"send\":[\"mailto:reports@red.example.net\"],\"cautions\":[]}}",
        names.join(",")
    );
    assert_eq!(object, expected);
}

#[test]
fn the_next_name() {
    let first = [
        "policy domain: blue.example.com",
        "host of the address: red.example.net",
        "next: ask _dmarc.blue.example.com",
    ];
    assert_eq!(lines(&example()), first);
    let one = answer(
        example(),
        "_DMARC.blue.example.com.",
        Status::Records,
        Vec::new(),
    );
    let second = [
        first[0],
        first[1],
        "asked _dmarc.blue.example.com: none",
        "next: ask _dmarc.example.com",
    ];
    assert_eq!(lines(&one), second);
    let expected = "{\"next\":\"_dmarc.example.com\",\"policy_domain\":\"blue.example.com\",\
                    \"host\":\"red.example.net\",\"names\":[{\"name\":\"_dmarc.blue.example.com\",\
                    \"answer\":\"none\"}]}";
    assert_eq!(json(&one).to_string(), expected);
}

#[test]
fn inside() {
    let equal = handed("Example.com.", "mailto:a@example.COM");
    let expected = [
        "policy domain: example.com",
        "host of the address: example.com",
        "inside: the host is the policy domain itself, so nothing is asked",
    ];
    assert_eq!(lines(&equal), expected);
    let object = json(&equal).to_string();
    assert!(object.starts_with("{\"agreement\":\"inside\","), "{object}");
    assert!(object.contains("\"names\":[],\"asked\":0,\"organizational_domain\":null,"));
    let walked = texts(
        handed("a.example.com", "mailto:x@b.example.com"),
        "_dmarc.example.com",
        &["v=DMARC1; p=none"],
    );
    let expected = [
        "inside: the policy domain and the host have one organizational domain",
        "  organizational domain of the policy domain: example.com (the shortest domain with a \
         record)",
        "  organizational domain of the host: example.com (the shortest domain with a record)",
    ];
    assert_eq!(outcome(walked), expected);
}

#[test]
fn organizational_domains_by_psd() {
    let base = || handed("a.example.com", "mailto:x@b.example.com");
    let yes = texts(base(), "_dmarc.com", &["v=DMARC1; psd=y"]);
    let line = "  organizational domain of the host: example.com (one label more than com, whose \
                record has psd=y)";
    assert_eq!(outcome(yes)[2], line);
    let no = texts(base(), "_dmarc.a.example.com", &["v=DMARC1; psd=n"]);
    let line = "  organizational domain of the policy domain: a.example.com (its record has psd=n)";
    assert_eq!(outcome(no)[2], line);
}

#[test]
fn not_known() {
    let policy = error(example(), "_dmarc.example.com");
    let expected = [
        "not known: the walk of the policy domain ended in an error at example.com (its lookup \
         failed), and nothing more is asked",
    ];
    assert_eq!(outcome(policy), expected);
    let host = outcome(error(example(), "_dmarc.net"));
    let said = "not known: the walk of the host ended in an error at net (its lookup failed), and \
                nothing more is asked";
    assert_eq!(host[0], said);
    assert_eq!(host.len(), 2);
    let name = outcome(error(example(), CONFIRMING));
    let said = format!("not known: an error at {CONFIRMING} (its lookup failed)");
    assert_eq!(name[0], said);
    let object = json(&complete(error(example(), CONFIRMING))).to_string();
    assert!(
        object.starts_with("{\"agreement\":\"not known\","),
        "{object}"
    );
    assert!(object.ends_with("\"send\":[],\"cautions\":[]}"), "{object}");
}

/// Where no other answers come, a name without one is a failed lookup, and told from
/// an answered one.
#[test]
fn a_name_without_an_answer() {
    let whole = |handed| AddressHanded {
        complete: true,
        ..handed
    };
    let said = lines(&whole(example()));
    let expected = [
        "asked _dmarc.blue.example.com: missing",
        "not known: the walk of the policy domain ended in an error at blue.example.com (no answer \
         is given for it), and nothing more is asked",
    ];
    assert_eq!(said[2..], expected);
    let object = json(&whole(example())).to_string();
    let names = "\"names\":[{\"name\":\"_dmarc.blue.example.com\",\"answer\":\"missing\"}]";
    assert!(object.contains(names), "{object}");
    let mut last = complete(example());
    last.answers.pop();
    let said = lines(&whole(last));
    let line = format!("not known: an error at {CONFIRMING} (no answer is given for it)");
    assert!(said.contains(&line), "{said:?}");
}

#[test]
fn a_plain_no() {
    let none = outcome(example());
    assert_eq!(
        none[0],
        format!("a plain no: {CONFIRMING} has no policy record")
    );
    let given = ["junk", "v=DMARC1; p=none; p=none"];
    let junk = outcome(texts(example(), CONFIRMING, &given));
    assert_eq!(junk[0], none[0]);
    let why =
        "  record 1 is no policy record: its first part is \"junk\", and not v=DMARC1: it does \
               not begin with v";
    assert_eq!(junk[3], why);
    let why = "  record 2 is no policy record: tag p is written twice";
    assert_eq!(junk[4], why);
    let given = [
        "v=DMARC1",
        "v=DMARC1; rua=mailto:a@red.example.net,mailto:a@green.example",
    ];
    let other = outcome(texts(example(), CONFIRMING, &given));
    let said = format!(
        "a plain no: record 2 at {CONFIRMING} names the host green.example in entry 2 of rua, and \
         not red.example.net"
    );
    assert_eq!(other[0], said);
    let label = "x".repeat(60);
    let policy = format!("{label}.{label}.a");
    let host = format!("{label}.{}.b", "y".repeat(52));
    let long = outcome(handed(&policy, &format!("mailto:r@{host}")));
    let said = format!(
        "a plain no: {policy}._report._dmarc.{host} has 254 octets, and 253 are the most, so it is \
         not asked and counts as none"
    );
    assert_eq!(long[0], said);
}

#[test]
fn the_address_that_takes_its_place() {
    let rua = "https://red.example.net/r, mailto:a@red.example.net";
    let text = format!("v=DMARC1; rua={rua}");
    let handed = texts(example(), CONFIRMING, &["ab", &text]);
    let expected = [
        format!(
            "replaced: record 2 at {CONFIRMING} names addresses in rua, and red.example.net is the \
             host of each"
        ),
        format!("  organizational domain of the policy domain: blue.example.com ({OWN})"),
        format!("  organizational domain of the host: red.example.net ({OWN})"),
        "  record 1 is no policy record: its first part is \"ab\", and not v=DMARC1: it does not \
         begin with v"
            .to_string(),
        format!("its place takes: \"{rua}\""),
        "reports may go to mailto:a@red.example.net".to_string(),
        "nothing may go to entry 1 of rua, \"https://red.example.net/r\": its scheme is not mailto"
            .to_string(),
    ];
    assert_eq!(outcome(handed.clone()), expected);
    let handed = complete(handed);
    assert_eq!(advice(&handed), expected[5..]);
    let object = json(&handed).to_string();
    let replaced = format!(
        "\"replaced_by\":{{\"text\":\"{rua}\",\"begin\":16,\"length\":{}}},\
         \"send\":[\"mailto:a@red.example.net\"],\"cautions\":[]}}",
        rua.len()
    );
    assert!(object.ends_with(&replaced), "{object}");
}

/// Reports go to no address that did not agree, and of one that did is said where a
/// mailer may find another host in it.
#[test]
fn another_host_for_a_mailer() {
    let caution = |entry: &str, mark: &str| {
        format!("a mailer may find another host than own.example in {entry}, since it has {mark}")
    };
    for (local, mark) in [
        ("x@victim.example?y=", "a `?`"),
        ("x?y", "a `?`"),
        ("x#y", "a `#`"),
        ("x@victim.example", "a second `@`"),
        ("x%40victim.example", "an `@` written `%40`"),
    ] {
        let entry = format!("mailto:{local}@own.example");
        let inside = handed("own.example", &format!(" {entry} "));
        let expected = caution(&entry, mark);
        assert_eq!(advice(&inside), [expected.as_str()]);
        assert_eq!(lines(&inside).last(), Some(&expected));
        let object = json(&inside).to_string();
        let end = format!("\"send\":[\"{entry}\"],\"cautions\":[\"{expected}\"]}}");
        assert!(object.ends_with(&end), "{object}");
        assert_eq!(advice(&handed("other.example", &entry)), [""; 0]);
        assert_eq!(advice(&complete(handed("other.example", &entry))), [""; 0]);
    }
    let plain = "mailto:x%2Cy+z@own.example";
    assert_eq!(advice(&handed("own.example", plain)), [""; 0]);
    // The entry that was checked is of no account where another text takes its place.
    let checked = handed("blue.example.com", "mailto:a@b@own.example");
    let name = "blue.example.com._report._dmarc.own.example";
    let rua = "v=DMARC1; rua=mailto:a@own.example,mailto:b@c@own.example";
    let expected = [
        "reports may go to mailto:a@own.example".to_string(),
        "reports may go to mailto:b@c@own.example".to_string(),
        caution("mailto:b@c@own.example", "a second `@`"),
    ];
    assert_eq!(advice(&complete(texts(checked, name, &[rua]))), expected);
}

#[test]
fn refusals() {
    let refused = |policy: &str, entry: &str| lines(&handed(policy, entry)).join("\n");
    let line = "refused 11 at 0: the policy domain is bad: `a..b` has a dot too many";
    assert_eq!(refused("a..b", "x"), line);
    for (entry, why) in [
        (
            "mailto:a@b,mailto:a@b",
            "it has a comma; give one entry of the list",
        ),
        ("a@b.c", "it has no `:`, as in mailto:a@example.com"),
        ("mailto:a@b.c!10m", "`!` may not stand in it"),
        ("https://a@b.c", "its scheme is not mailto"),
        ("mailto:a", "it has no `@`"),
        (
            "mailto:a@b..c",
            "no domain stands after its last `@`: `b..c` has a dot too many",
        ),
        (
            "mailto:a@",
            "no domain stands after its last `@`: it is empty",
        ),
    ] {
        let line = format!(
            "refused 23 at 0: the entry `{entry}` is no address that can be checked: {why}"
        );
        assert_eq!(refused("a", entry), line);
    }
    let expected =
        "{\"refused\":23,\"at\":0,\"meaning\":\"the entry `x` is no address that can be \
                    checked: it has no `:`, as in mailto:a@example.com\",\"name\":null,\
                    \"line\":null}";
    assert_eq!(json(&handed("a", "x")).to_string(), expected);
    let unreadable = answer(
        handed("a", "mailto:x@b"),
        "_dmarc.a",
        Status::Records,
        b"T".to_vec(),
    );
    let said = lines(&unreadable);
    let line = "refused 6 at 0: the answer for _dmarc.a cannot be read as TXT records; hand it in \
                as an error, never as none";
    assert_eq!(said[2..], ["asked _dmarc.a: unreadable", line]);
    let object = json(&unreadable).to_string();
    let end = ",\"name\":\"_dmarc.a\",\"line\":1}";
    assert!(object.ends_with(end), "{object}");
}

/// What is said after a call is what the book gave.
fn check_said(handed: &AddressHanded, told: &Told) {
    let (lines, object) = (lines(handed), json(handed).to_string());
    let begins = match told {
        Told::Accepted => return,
        Told::Ask(name) => {
            let name = String::from_utf8_lossy(name);
            assert_eq!(lines.last(), Some(&format!("next: ask {name}")));
            format!("{{\"next\":\"{name}\",")
        }
        Told::Verdict(verdict) => {
            let word = verdict.outcome.word();
            let begin = match word {
                "no" => "a plain no: ".to_string(),
                _ => format!("{word}: "),
            };
            assert!(
                lines.iter().any(|line| line.starts_with(&begin)),
                "{lines:?}"
            );
            let asked = format!(",\"asked\":{},", verdict.asked);
            assert!(object.contains(&asked), "{object}");
            format!("{{\"agreement\":\"{word}\",")
        }
        Told::Refused(refusal) => {
            assert!(lines[0].starts_with(&format!("{refusal}: ")), "{lines:?}");
            format!("{{\"refused\":{},", refusal.number)
        }
    };
    assert!(object.starts_with(&begins), "{object}");
}

#[test]
fn what_is_said_of_random_checks() {
    let (mut book, mut running) = (AddressBook::default(), AddressHanded::default());
    for call in random(9).take(300).flatten() {
        let told = call.make(&mut book, &mut vec![0; call.lent()]);
        match (&call, &told) {
            (Call::Start(start), _) => {
                let own = AddressHanded {
                    policy: start.policy.clone(),
                    entry: start.entry.clone(),
                    ..AddressHanded::default()
                };
                check_said(&own, &told);
                if told == Told::Accepted {
                    running = own;
                }
            }
            (Call::Answer(given), Told::Accepted) => running.answers.push(GivenAnswer {
                name: given.name.clone(),
                status: given.status,
                bytes: given.bytes.clone(),
                line: 0,
            }),
            (_, Told::Ask(_) | Told::Verdict(_)) => check_said(&running, &told),
            _ => {}
        }
    }
}
