//! A message with its answers, and what the evaluator makes of it.

use std::collections::HashMap;

use crate::octets::tx;
use evaluator::book::Book;
use evaluator::domain::Domain;
use evaluator::evaluate::{evaluate, Evaluation, Progress};
use evaluator::message::Message;
use evaluator::policy::Policy;
use evaluator::refusal::Refusal;
use evaluator::txt::{Answer, Status};
use evaluator::verdict::{Alignment, AppliedPolicy, Verdict};
use evaluator::walk::{organizational, AskedName};

pub const NONE: AppliedPolicy = AppliedPolicy::Known(Policy::None);
pub const QUARANTINE: AppliedPolicy = AppliedPolicy::Known(Policy::Quarantine);
pub const REJECT: AppliedPolicy = AppliedPolicy::Known(Policy::Reject);
pub const UNKNOWN: AppliedPolicy = AppliedPolicy::Unknown;

pub fn refusal(number: u8, place: usize) -> Refusal {
    Refusal { number, place }
}

/// A message and its answers; all else answers none.
#[derive(Clone)]
pub struct Case {
    author: String,
    existence: u8,
    support: u8,
    identifiers: Vec<(u8, u8, String)>,
    answers: HashMap<String, (Status, Vec<u8>)>,
}

pub fn case(author: &str) -> Case {
    Case {
        author: author.to_string(),
        existence: 1,
        support: 1,
        identifiers: Vec::new(),
        answers: HashMap::new(),
    }
}

impl Case {
    pub fn existence(mut self, number: u8) -> Case {
        self.existence = number;
        self
    }

    pub fn support(mut self, number: u8) -> Case {
        self.support = number;
        self
    }

    pub fn spf(self, domain: &str) -> Case {
        self.identifier(0, 1, domain)
    }

    pub fn dkim(self, domain: &str) -> Case {
        self.identifier(1, 1, domain)
    }

    pub fn identifier(mut self, kind: u8, outcome: u8, domain: &str) -> Case {
        self.identifiers.push((kind, outcome, domain.to_string()));
        self
    }

    /// A policy text at a domain.
    pub fn text(self, domain: &str, text: &str) -> Case {
        self.texts(domain, &[text])
    }

    pub fn texts(self, domain: &str, texts: &[&str]) -> Case {
        let records = texts.iter().map(|text| tx(&[text.as_bytes()]));
        self.answer(
            domain,
            Status::Records,
            records.collect::<Vec<_>>().concat(),
        )
    }

    pub fn error(self, domain: &str) -> Case {
        self.answer(domain, Status::Error, Vec::new())
    }

    fn answer(mut self, domain: &str, status: Status, bytes: Vec<u8>) -> Case {
        let name = format!("_dmarc.{domain}");
        self.answers.insert(name, (status, bytes));
        self
    }

    pub fn lookup(&self, name: &[u8]) -> Answer<'_> {
        let name = std::str::from_utf8(name).expect("a name in ASCII");
        match self.answers.get(name) {
            Some((status, bytes)) => Answer {
                status: *status,
                bytes,
            },
            None => Answer::NONE,
        }
    }

    /// The message opened, and its identifiers added in turn.
    pub fn message(&self) -> Result<Message, Refusal> {
        let mut message = Message::open(self.author.as_bytes(), self.existence, self.support)?;
        for (kind, outcome, domain) in &self.identifiers {
            message.add(*kind, *outcome, domain.as_bytes())?;
        }
        Ok(message)
    }

    /// The message opened in a book that stands as it may, and its identifiers
    /// added in turn.
    pub fn open_in(&self, book: &mut Book) -> Result<(), Refusal> {
        book.open(self.author.as_bytes(), self.existence, self.support)?;
        let mut identifiers = self.identifiers.iter();
        identifiers
            .try_for_each(|(kind, outcome, domain)| book.add(*kind, *outcome, domain.as_bytes()))
    }

    /// A book with this message.
    pub fn book(&self) -> Book {
        let mut book = Book::default();
        self.open_in(&mut book).expect("an accepted message");
        book
    }

    pub fn evaluation(&self) -> Evaluation {
        let message = self.message().expect("an accepted message");
        evaluate(&message, |name| Some(self.lookup(name)))
    }

    pub fn verdict(&self) -> Verdict {
        match self.evaluation().progress {
            Progress::Verdict(verdict) => verdict,
            Progress::Ask(name) => panic!("no verdict: {name:?} has no answer"),
        }
    }

    /// The names asked, without `_dmarc.`.
    pub fn asked(&self) -> Vec<String> {
        shown(&self.evaluation().names)
    }

    /// Checks result, policy and disposition, by their words, and the names asked.
    pub fn gives(&self, words: &str, asked: &[&str]) -> Verdict {
        let verdict = self.verdict();
        let (result, policy) = (verdict.result.word(), verdict.policy.word());
        let disposition = verdict.disposition.word();
        assert_eq!(format!("{result} {policy} {disposition}"), words);
        assert_eq!(self.asked(), asked, "names asked");
        assert_eq!(verdict.asked, asked.len(), "count");
        verdict
    }

    /// One walk over these answers: its organizational domain, and the names it
    /// asks.
    fn walked(&self, domain: &str) -> (Option<Domain>, Vec<AskedName>) {
        let start = Domain::read(domain.as_bytes()).expect("a good domain");
        organizational(&start, |name| Some(self.lookup(name))).expect("answers")
    }

    pub fn organizational(&self, domain: &str) -> Option<String> {
        let (found, _) = self.walked(domain);
        found.map(|domain| String::from_utf8_lossy(domain.octets()).into_owned())
    }

    /// The names that one walk asks.
    pub fn walk(&self, domain: &str) -> Vec<String> {
        shown(&self.walked(domain).1)
    }
}

fn shown(names: &[AskedName]) -> Vec<String> {
    let text = |asked: &AskedName| {
        let name = String::from_utf8_lossy(&asked.name).into_owned();
        name.strip_prefix("_dmarc.")
            .expect("the prefix")
            .to_string()
    };
    names.iter().map(text).collect()
}

pub fn domain_of(verdict: &Verdict) -> String {
    String::from_utf8_lossy(&verdict.domain).into_owned()
}

pub fn words(alignments: &[Alignment]) -> Vec<&'static str> {
    alignments
        .iter()
        .map(|alignment| alignment.word())
        .collect()
}
