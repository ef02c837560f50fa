//! An address with its answers, and what the check makes of it.

use std::collections::HashMap;

use crate::octets::tx;
use evaluator::address::book::{AddressBook, AddressStep};
use evaluator::address::{check, Address, Check, Outcome, Progress, Verdict};
use evaluator::txt::{Answer, Status};
use evaluator::walk::AskedName;

/// An address and its answers by whole names; all else answers none.
#[derive(Clone)]
pub struct AddressCase {
    policy: String,
    entry: String,
    answers: HashMap<String, (Status, Vec<u8>)>,
}

pub fn address(policy: &str, entry: &str) -> AddressCase {
    AddressCase {
        policy: policy.to_string(),
        entry: entry.to_string(),
        answers: HashMap::new(),
    }
}

/// The example of RFC 9990, section 4, with a confirming answer of these texts.
pub fn example(texts: &[&str]) -> AddressCase {
    let case = address("blue.example.com", "mailto:reports@red.example.net");
    case.texts("blue.example.com._report._dmarc.red.example.net", texts)
}

impl AddressCase {
    pub fn texts(self, name: &str, texts: &[&str]) -> AddressCase {
        let records = texts.iter().map(|text| tx(&[text.as_bytes()]));
        self.bytes(name, records.collect::<Vec<_>>().concat())
    }

    /// A policy text at a domain that is walked over.
    pub fn record(self, domain: &str, text: &str) -> AddressCase {
        self.texts(&format!("_dmarc.{domain}"), &[text])
    }

    pub fn bytes(mut self, name: &str, bytes: Vec<u8>) -> AddressCase {
        let answer = (Status::Records, bytes);
        self.answers.insert(name.to_string(), answer);
        self
    }

    pub fn error(mut self, name: &str) -> AddressCase {
        let answer = (Status::Error, Vec::new());
        self.answers.insert(name.to_string(), answer);
        self
    }

    pub fn lookup(&self, name: &[u8]) -> Answer<'_> {
        let name = std::str::from_utf8(name).expect("a name in ASCII");
        let given = self.answers.get(name);
        given.map_or(Answer::NONE, |(status, bytes)| Answer {
            status: *status,
            bytes,
        })
    }

    /// The check afresh over all answers.
    pub fn check(&self) -> Check {
        let address = Address::read(self.policy.as_bytes(), self.entry.as_bytes());
        check(&address.expect("an address"), |name| {
            Some(self.lookup(name))
        })
    }

    pub fn book(&self) -> AddressBook {
        let mut book = AddressBook::default();
        let started = book.start(self.policy.as_bytes(), self.entry.as_bytes());
        assert_eq!(started, Ok(()));
        book
    }

    /// The verdict of the calls one after the other, which is that of the check
    /// afresh and has its names; and the scratch after the last answer.
    pub fn run(&self) -> (Verdict, Vec<AskedName>, Vec<u8>) {
        let (mut book, mut names) = (self.book(), Vec::new());
        let mut scratch = vec![b'~'; 4096];
        let verdict = loop {
            match book.next_step().expect("a step") {
                AddressStep::Verdict(verdict) => break verdict,
                AddressStep::Ask(asked) => {
                    scratch.fill(b'~');
                    let answer = self.lookup(&asked.name);
                    let given = book.answer(&asked.name, answer, &mut scratch);
                    assert_eq!(given, Ok(()));
                    names.push(asked);
                }
            }
        };
        assert_eq!(book.result(), Ok(verdict));
        let check = self.check();
        assert_eq!(check.progress, Progress::Verdict(verdict));
        assert_eq!(check.names, names);
        assert_eq!(verdict.asked, names.len());
        (verdict, names, scratch)
    }

    pub fn outcome(&self) -> Outcome {
        self.run().0.outcome
    }

    pub fn names(&self) -> Vec<String> {
        let names = self.run().1.into_iter();
        let name = |asked: AskedName| String::from_utf8(asked.name).expect("a name in ASCII");
        names.map(name).collect()
    }

    /// The text that takes the address's place, read from the scratch.
    pub fn replacing(&self) -> (usize, String) {
        let (verdict, _, scratch) = self.run();
        let Outcome::Replaced { begin, length } = verdict.outcome else {
            panic!("not replaced: {verdict:?}");
        };
        let text = scratch[begin..begin + length].to_vec();
        (begin, String::from_utf8(text).expect("a text in ASCII"))
    }
}
