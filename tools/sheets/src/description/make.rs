//! The sheet of a description.

use super::answers::{answer, pasted, AnswerLine, BEFORE_TEXTS};
use super::collected::{check_name, Collected};
use super::described::{Described, Mistake};
use super::lines::each_line;
use super::tokens::{after_front, domain_octets, hex_words, Token};
use super::words::{number_of, outcome_of, EXISTENCES, SUPPORTS};
use crate::shown::brief;
use crate::written::{sheet_and_places, Record, MOST_BODY_OCTETS};
use evaluator::sheet;

const ITEMS: &str = "a line begins with author, spf, dkim, id, answer or sheet";
const NO_AUTHOR: &str =
    "the description has no author line, such as: author example.com exists supported";

/// A sheet under way.
#[derive(Default)]
struct Maker {
    /// Each record of another item than an answer, and its line.
    records: Vec<(Record, usize)>,
    answers: Collected,
    /// The octets of a `sheet hex`, which stands alone, and its line.
    whole: Option<(Vec<u8>, usize)>,
}

/// Makes the sheet of a description; an error is `line N: plain reason`.
pub fn make(description: &[u8]) -> Result<Vec<u8>, String> {
    let described = read(description).map_err(|mistake| mistake.to_string())?;
    Ok(described.sheet)
}

/// Reads a description.
pub fn read(description: &[u8]) -> Result<Described, Mistake> {
    let mut maker = Maker::default();
    each_line(description, BEFORE_TEXTS, |tokens, line| {
        maker.line(tokens, line)
    })?;
    maker.finish()
}

impl Maker {
    fn line(&mut self, tokens: &[Token], line: usize) -> Result<(), String> {
        match tokens.split_first() {
            None => Ok(()),
            Some((head, rest)) => self.item(head.octets(), rest, tokens, line),
        }
    }

    fn item(
        &mut self,
        head: &[u8],
        rest: &[Token],
        tokens: &[Token],
        line: usize,
    ) -> Result<(), String> {
        let head_word = head.to_ascii_lowercase();
        let begun = !self.records.is_empty() || !self.answers.is_empty();
        if self.whole.is_some() || (head_word == b"sheet" && begun) {
            return Err("`sheet` stands alone in a description".to_string());
        }
        match head_word.as_slice() {
            b"author" => self.record(line, author(rest)?),
            b"spf" => self.record(line, identifier(0, rest)?),
            b"dkim" => self.record(line, identifier(1, rest)?),
            b"id" => self.record(line, raw_identifier(rest)?),
            b"answer" => self.answer(line, answer(rest)?),
            b"sheet" => {
                self.whole = Some((hex_words(rest)?, line));
                Ok(())
            }
            _ => match pasted(tokens) {
                Some(read) => self.answer(line, read?),
                None => Err(format!("unknown item `{}`; {ITEMS}", brief(head))),
            },
        }
    }

    fn record(&mut self, line: usize, record: Record) -> Result<(), String> {
        fits(record.body.len())?;
        self.records.push((record, line));
        Ok(())
    }

    fn answer(&mut self, line: usize, answer: AnswerLine) -> Result<(), String> {
        fits(self.answers.add(answer, line)?)
    }

    /// A description other than `sheet hex` is of a well-formed sheet.
    fn finish(self) -> Result<Described, Mistake> {
        if let Some((sheet, line)) = self.whole {
            let lines = vec![(0, line)];
            return Ok(Described { sheet, lines });
        }
        let (records, lines) = self.in_order();
        let (sheet, places) = sheet_and_places(&records);
        let lines = places.into_iter().zip(lines).collect();
        let described = Described { sheet, lines };
        match sheet::read(&described.sheet) {
            Ok(_) => Ok(described),
            Err(refusal) => Err(mistake(&described, refusal.place)),
        }
    }

    /// All records in the order of their lines, and these.
    fn in_order(self) -> (Vec<Record>, Vec<usize>) {
        let answers = self.answers.into_answers().into_iter();
        let answers = answers.map(|(answer, line)| (answer.record(), line));
        let mut records: Vec<(Record, usize)> = self.records.into_iter().chain(answers).collect();
        records.sort_by_key(|(_, line)| *line);
        records.into_iter().unzip()
    }
}

fn fits(octets: usize) -> Result<(), String> {
    match octets > MOST_BODY_OCTETS {
        true => Err("longer than the 65535 octets of a sheet record".to_string()),
        false => Ok(()),
    }
}

/// What is wrong with a description whose sheet is broken at a place.
fn mistake(described: &Described, place: usize) -> Mistake {
    let at = described.lines.iter().find(|(begin, _)| *begin == place);
    let last = described.lines.last();
    let reason = match at {
        Some((place, _)) => broken(&described.sheet, *place),
        None if described.lines.is_empty() => NO_AUTHOR.to_string(),
        None => "the sheet is over 65536 octets".to_string(),
    };
    Mistake {
        line: at.or(last).map_or(1, |(_, line)| *line),
        reason,
    }
}

/// Why the record at a place of a made sheet is broken.
fn broken(sheet: &[u8], place: usize) -> String {
    match (sheet.get(place..).unwrap_or_default(), place) {
        ([b'A', b'U', ..], 1..) => "a second author line".to_string(),
        (_, 0) => "the author line comes first".to_string(),
        ([b'I', b'D', ..], _) => "identifiers come before answers".to_string(),
        ([_, _, _, _, _, length, rest @ ..], _) => {
            let name = rest.get(..usize::from(*length)).unwrap_or_default();
            check_name(name).err().unwrap_or_default()
        }
        _ => "the line makes a broken record".to_string(),
    }
}

/// A raw number written `name=7`.
fn raw_number(token: &Token, name: &str) -> Result<u8, String> {
    let fault = || format!("`{name}=` and a number from 0 to 255 expected");
    let Token::Word(word) = token else {
        return Err(fault());
    };
    let digits = after_front(word, &format!("{name}="));
    let text = digits.and_then(|digits| std::str::from_utf8(digits).ok());
    text.and_then(|text| text.parse().ok()).ok_or_else(fault)
}

const AUTHOR_FORM: &str =
    "author takes a domain, its existence and whether rejecting is supported, \
     as in: author example.com exists supported";

fn author(tokens: &[Token]) -> Result<Record, String> {
    let [domain, existence, support] = tokens else {
        return Err(AUTHOR_FORM.to_string());
    };
    let raw = matches!(existence, Token::Word(word) if after_front(word, "existence=").is_some());
    let (existence, support) = match raw {
        true => (
            raw_number(existence, "existence")?,
            raw_number(support, "support")?,
        ),
        false => (
            number_of(&EXISTENCES, existence, "existence")?,
            number_of(&SUPPORTS, support, "support")?,
        ),
    };
    Ok(Record::author(existence, support, &domain_octets(domain)?))
}

fn identifier(kind: u8, tokens: &[Token]) -> Result<Record, String> {
    let [outcome, domain] = tokens else {
        return Err(
            "an identifier takes an outcome and a domain, as in: dkim pass example.com".to_string(),
        );
    };
    let outcome = outcome_of(outcome)?;
    Ok(Record::identifier(kind, outcome, &domain_octets(domain)?))
}

fn raw_identifier(tokens: &[Token]) -> Result<Record, String> {
    let [kind, outcome, domain] = tokens else {
        return Err("id takes a kind, an outcome and a domain".to_string());
    };
    let (kind, outcome) = (raw_number(kind, "kind")?, raw_number(outcome, "outcome")?);
    Ok(Record::identifier(kind, outcome, &domain_octets(domain)?))
}
