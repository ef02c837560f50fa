//! A check as it is handed over.

use crate::description::read_answers;
use crate::handed::{check_text, in_file};
use evaluator::domain::without_dot;
use evaluator::txt::{Answer, Status};

/// A policy domain, an entry of its rua text, and answers of whole names.
#[derive(Clone, Debug, Default, PartialEq, Eq)]
pub struct AddressHanded {
    pub policy: Vec<u8>,
    pub entry: Vec<u8>,
    pub answers: Vec<GivenAnswer>,
    /// The name of the file that the answers are of, if they are of one.
    pub file: Option<String>,
    /// Whether no other answers come: a name without one is then a failed lookup.
    pub complete: bool,
}

#[derive(Clone, Debug, PartialEq, Eq)]
pub struct GivenAnswer {
    pub name: Vec<u8>,
    pub status: Status,
    pub bytes: Vec<u8>,
    /// Where it begins in its file.
    pub line: usize,
}

impl AddressHanded {
    /// With the answers of a file, by its name and octets; the error has that name,
    /// and the line of a mistake.
    pub fn with_file(mut self, name: &str, octets: &[u8]) -> Result<AddressHanded, String> {
        let read = check_text(octets, "check")
            .and_then(|()| read_answers(octets).map_err(|mistake| mistake.to_string()));
        let lines = read.map_err(|reason| in_file(name, &reason))?;
        let answers = lines.into_iter().map(|(answer, line)| GivenAnswer {
            name: answer.name,
            status: answer.status,
            bytes: answer.bytes,
            line,
        });
        self.answers = answers.collect();
        self.file = Some(name.to_string());
        Ok(self)
    }

    /// What was given for a name, in either case, with or without its final dot; the
    /// first of several.
    pub fn given(&self, name: &[u8]) -> Option<&GivenAnswer> {
        let own = |given: &&GivenAnswer| without_dot(&given.name).eq_ignore_ascii_case(name);
        self.answers.iter().find(own)
    }

    /// The answer of a name; nothing if it may still come.
    pub fn answer(&self, name: &[u8]) -> Option<Answer<'_>> {
        let given = self.given(name).map(|given| Answer {
            status: given.status,
            bytes: &given.bytes,
        });
        given.or(self.complete.then_some(Answer::ERROR))
    }
}
