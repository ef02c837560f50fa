//! One case by both.

use std::fmt;

use crate::alike::BEHIND;
use crate::calls::{Calls, Run};
use evaluator::domain::Domain;
use evaluator::report;
use records::agreement;
use records::code::{accepted, Code};
use sheets::programs::calls::{AddCall, AnswerCall, Call, OpenCall, Told};
use sheets::programs::lent::{written_words, FILL};
use sheets::programs::vectors::{AnswerCase, Case, FieldCase, NameCase};
use waslidhaj::raw::Written;

const AUTHOR: &[u8] = b"example.com";
const ASKED: &[u8] = b"_dmarc.example.com";
/// An answer with which the verdict follows at once.
const OWN_RECORD: &[u8] = b"TX\0\x13\x12v=DMARC1; p=reject";
/// Messages in which the settings of a record at example.com show: author and
/// existence. The author's own message has identifiers of each kind below it.
const MESSAGES: [(&[u8], u8); 3] = [
    (AUTHOR, 1),
    (b"news.example.com", 1),
    (b"news.example.com", 0),
];

/// How many cases there were.
#[derive(Default)]
pub struct Counts {
    texts: usize,
    records: usize,
    answers: usize,
    accepted: usize,
    file_names: usize,
    fields: usize,
    domains: usize,
    names: usize,
}

impl fmt::Display for Counts {
    fn fmt(&self, out: &mut fmt::Formatter<'_>) -> fmt::Result {
        write!(
            out,
            "{} policy texts ({} records), {} answers ({} accepted) in {} messages each, \
             {} file names, {} fields, {} domains ({} names asked)",
            self.texts,
            self.records,
            self.answers,
            self.accepted,
            MESSAGES.len(),
            self.file_names,
            self.fields,
            self.domains,
            self.names
        )
    }
}

/// Both on one case after the other.
pub struct Checker<'r, C, R, W> {
    run: Run<C>,
    records: &'r R,
    file_name: W,
    pub counts: Counts,
}

impl<'r, C: Calls, R: Code, W: Fn(&NameCase, &mut [u8]) -> Written> Checker<'r, C, R, W> {
    pub fn new(calls: C, records: &'r R, file_name: W) -> Checker<'r, C, R, W> {
        Checker {
            run: Run::new(calls),
            records,
            file_name,
            counts: Counts::default(),
        }
    }

    pub fn check(&mut self, case: &Case) -> Result<(), String> {
        match case {
            Case::Policy(text) => self.policy(text),
            Case::Answer(given) => self.answer(given),
            Case::FileName(given) => self.name(given),
            Case::Field(given) => self.field(given),
            Case::Labels(domain) => self.labels(domain),
        }
    }

    fn policy(&mut self, text: &[u8]) -> Result<(), String> {
        let read = agreement::read(self.records, text)?;
        self.counts.texts += 1;
        self.counts.records += usize::from(read.is_some());
        Ok(())
    }

    /// The answer at example.com in each of the messages, all other names having
    /// none.
    fn answer(&mut self, given: &AnswerCase) -> Result<(), String> {
        let mut told = Told::Accepted;
        for (author, existence) in MESSAGES {
            self.open(author, existence)?;
            if author == AUTHOR {
                for kind in [1, 0] {
                    self.add(kind, 1, b"mail.example.com")?;
                }
            }
            told = self.answer_asked(given)?;
            self.run.finish()?;
        }
        self.counts.answers += 1;
        self.counts.accepted += usize::from(told == Told::Accepted);
        Ok(())
    }

    /// Goes on until example.com is asked, and answers it.
    fn answer_asked(&mut self, given: &AnswerCase) -> Result<Told, String> {
        while let Told::Ask(name) = self.run.step(&Call::Next)? {
            if name == ASKED {
                return self.run.step(&Call::Answer(AnswerCall {
                    status: given.status,
                    scratch: given.scratch,
                    name,
                    bytes: given.bytes.clone(),
                }));
            }
            self.run.step(&Call::Answer(AnswerCall::none(&name)))?;
        }
        Err("example.com is not asked".to_string())
    }

    fn open(&mut self, author: &[u8], existence: u8) -> Result<Told, String> {
        self.run.step(&Call::Open(OpenCall {
            existence,
            ..OpenCall::of(author)
        }))
    }

    fn add(&mut self, kind: u8, outcome: u8, domain: &[u8]) -> Result<Told, String> {
        self.run
            .step(&Call::Add(AddCall::new(kind, outcome, domain)))
    }

    fn name(&mut self, given: &NameCase) -> Result<(), String> {
        let size = usize::from(given.size);
        let mut out = vec![FILL; size + BEHIND];
        let mut expected_out = out.clone();
        let lent = expected_out.get_mut(..size).unwrap_or_default();
        let expected = report::file_name(&given.parts(), lent);
        let written = (self.file_name)(given, out.get_mut(..size).unwrap_or_default());
        let told = accepted(written.refusal).map(|()| written.length);
        if told != expected || (told.is_err() && written.length != 0) || out != expected_out {
            return Err(format!(
                "a file name differs\n-- the proved code\n{} {}\n-- the reference\n{} {}\n\
                 -- the file name\n{given:?}",
                written_words(told),
                out.escape_ascii(),
                written_words(expected),
                expected_out.escape_ascii()
            ));
        }
        self.counts.file_names += 1;
        Ok(())
    }

    /// At the verdict of a message with identifiers of the author's own domain.
    fn field(&mut self, given: &FieldCase) -> Result<(), String> {
        self.open(AUTHOR, 1)?;
        for (kind, outcome) in given.identifiers() {
            self.add(kind, outcome, AUTHOR)?;
        }
        self.answer_asked(&AnswerCase {
            status: evaluator::txt::Status::Records,
            scratch: 4096,
            bytes: OWN_RECORD.to_vec(),
        })?;
        let size = u16::from(given.size);
        for call in [Call::Field { size }, Call::Next, Call::Field { size }] {
            self.run.step(&call)?;
        }
        self.counts.fields += 1;
        Ok(())
    }

    /// An author without any record: its names are those of the second evaluator's
    /// walk.
    fn labels(&mut self, domain: &[u8]) -> Result<(), String> {
        self.open(domain, 1)?;
        let names = self.run.finish()?;
        let targets = Domain::read(domain).map_or(Vec::new(), |own| own.walk_targets());
        let expected: Vec<Vec<u8>> = targets.iter().filter_map(Domain::asked_name).collect();
        if names != expected {
            let domain = domain.escape_ascii();
            return Err(format!("{domain} asks {} other names", names.len()));
        }
        self.counts.domains += 1;
        self.counts.names += names.len();
        Ok(())
    }
}
