//! The sheets of walks from domains of few and of many labels.

use std::collections::BTreeSet;

use crate::octets::run;
use evaluator::sheet::{read, reasoned};
use sheets::walk_sheets::{sheets, WalkSheet};

fn all() -> Vec<WalkSheet> {
    sheets().expect("domains that keep the rule")
}

fn labels(domain: &[u8]) -> usize {
    domain.split(|octet| *octet == b'.').count()
}

#[test]
fn few_and_many_labels_and_octets() {
    let all = all();
    for number in [1, 2, 7, 8, 9, 10, 127] {
        let of = all.iter().filter(|own| labels(&own.author) == number);
        assert!(of.count() > 8, "{number} labels");
    }
    for octets in [246, 247, 253] {
        let of = all.iter().filter(|own| own.author.len() == octets);
        assert!(of.count() > 60, "{octets} octets");
    }
    for own in &all {
        let read = read(&own.sheet).expect("a sheet");
        assert_eq!(read.message.author, own.author.as_slice());
    }
}

#[test]
fn walks_of_every_length_to_every_result() {
    let mut seen = BTreeSet::new();
    for own in all() {
        let reasoned = reasoned(&own.sheet).expect("a verdict");
        let result = reasoned.verdict.result.word();
        seen.insert((reasoned.grounds.author.looked, result));
    }
    for length in 2..=8 {
        for result in ["none", "pass", "fail", "temperror"] {
            assert!(seen.contains(&(length, result)), "{length} {result}");
        }
    }
}

/// What document 01 gives where the record is not the author's own: the
/// organizational domain is the target itself, with psd=y one label more.
fn result(name: &str) -> &'static str {
    let foreign = name.ends_with("a foreign label") && !name.contains("psd=y");
    match foreign || name.ends_with("one label more") {
        _ if name.contains("an error") => "temperror",
        true => "pass",
        false => "fail",
    }
}

#[test]
fn results_below_the_author() {
    let mut checked = 0;
    for own in all() {
        let at_itself = format!("at the last {},", labels(&own.author));
        if own.name.ends_with("no record") || own.name.contains(&at_itself) {
            continue;
        }
        let line = format!("result {}\n", result(&own.name));
        assert!(run(&own.sheet).contains(&line), "{}", own.name);
        checked += 1;
    }
    assert!(checked > 900, "{checked}");
}

/// The output of the sheet of a name.
fn output(name: &str) -> String {
    let own = all().into_iter().find(|own| own.name == name);
    run(&own.unwrap_or_else(|| panic!("no sheet {name}")).sheet)
}

#[test]
fn written_by_hand() {
    // All names but that of the whole domain are short enough.
    let none = "result none\npolicy none\ndisposition none\nasked";
    let most = output("labels 127, octets 253: no record");
    assert!(most.ends_with(&format!("{none} 7\n")));
    let nine = output("labels 9, octets 17: no record");
    assert!(nine.ends_with(&format!("{none} 8\n")));
    let error = output("labels 1, octets 1: an error at the last 1, one label more");
    assert_eq!(
        error,
        "ask _dmarc.a\nresult temperror\npolicy unknown\ndisposition defer\nasked 1\n"
    );
}
