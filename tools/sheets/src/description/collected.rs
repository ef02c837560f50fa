//! Answers gathered from lines: those of one name come to one answer.

use std::collections::HashMap;

use super::answers::{answer, pasted, AnswerLine, BEFORE_TEXTS};
use super::described::Mistake;
use super::lines::each_line;
use super::tokens::Token;
use crate::domain_words;
use crate::shown::brief;
use evaluator::domain::{self, without_dot};

const ITEMS: &str = "a line here begins with answer, or is one of dig's answer section";

/// Answers in the order of their first lines, each with that line.
#[derive(Default)]
pub struct Collected {
    answers: Vec<(AnswerLine, usize)>,
    /// Where a name, in lower case without a final dot, stands among them.
    places: HashMap<Vec<u8>, usize>,
}

/// Reads a description that has answers alone.
pub fn read_answers(description: &[u8]) -> Result<Vec<(AnswerLine, usize)>, Mistake> {
    let mut collected = Collected::default();
    each_line(description, BEFORE_TEXTS, |tokens, line| {
        let answer = answer_line(tokens)?;
        answer.map_or(Ok(()), |answer| collected.add(answer, line).map(drop))
    })?;
    for (answer, line) in &collected.answers {
        let line = *line;
        check_name(&answer.name).map_err(|reason| Mistake { line, reason })?;
    }
    Ok(collected.answers)
}

/// The answer of a line; nothing if it is empty.
fn answer_line(tokens: &[Token]) -> Result<Option<AnswerLine>, String> {
    let Some((head, rest)) = tokens.split_first() else {
        return Ok(None);
    };
    if head.is("answer") {
        return answer(rest).map(Some);
    }
    let item = brief(head.octets());
    let read = pasted(tokens).unwrap_or_else(|| Err(format!("`{item}` is no answer; {ITEMS}")));
    read.map(Some)
}

/// That the name of an answer keeps the domain rule.
pub fn check_name(name: &[u8]) -> Result<(), String> {
    match domain::fault(name) {
        None => Ok(()),
        Some(_) => {
            let why = domain_words::why(name);
            Err(format!("the name breaks the domain rule: {why}"))
        }
    }
}

impl Collected {
    pub fn is_empty(&self) -> bool {
        self.answers.is_empty()
    }

    /// A name's first line is where its answer stands; further records add to it.
    /// Gives how many octets its record on a sheet then has.
    pub fn add(&mut self, answer: AnswerLine, line: usize) -> Result<usize, String> {
        let name = without_dot(&answer.name).to_ascii_lowercase();
        let next = self.answers.len();
        let place = *self.places.entry(name).or_insert(next);
        match self.answers.get_mut(place) {
            None => {
                let octets = answer.octets();
                self.answers.push((answer, line));
                Ok(octets)
            }
            Some((first, _)) if first.adds && answer.adds => {
                first.bytes.extend(answer.bytes);
                Ok(first.octets())
            }
            Some(_) => Err("the name is answered already".to_string()),
        }
    }

    pub fn into_answers(self) -> Vec<(AnswerLine, usize)> {
        self.answers
    }
}
