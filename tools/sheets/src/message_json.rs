//! What came of a message, as an object of JSON.

use crate::description::{word, KINDS, OUTCOMES};
use crate::explain::{alignment_reason, reasons, Told};
use crate::handed::Handed;
use crate::json::Json;
use crate::refused;
use evaluator::refusal::Refusal;
use evaluator::sheet::{self, GivenIdentifier};
use evaluator::verdict::Verdict;

/// The verdict with its reasons, or the refusal with its meaning.
pub fn message_json(handed: &Handed) -> Json {
    let octets = handed.sheet();
    match (sheet::read(octets), sheet::reasoned(octets)) {
        (Ok(sheet), Ok(reasoned)) => verdict(&Told::new(&sheet, &reasoned)),
        (Err(refused), _) | (_, Err(refused)) => refusal(handed, refused),
    }
}

fn refusal(handed: &Handed, refusal: Refusal) -> Json {
    let meaning = refused::meaning(handed.sheet(), refusal);
    let line = handed.line(meaning.place).map(Json::Number);
    Json::Object(vec![
        ("refused", Json::Number(usize::from(refusal.number))),
        ("at", Json::Number(refusal.place)),
        ("meaning", Json::Text(meaning.sentence)),
        ("line", Json::or_null(line)),
    ])
}

fn verdict(told: &Told) -> Json {
    let verdict = told.verdict;
    Json::Object(vec![
        ("result", Json::text(verdict.result.word())),
        ("policy", Json::text(verdict.policy.word())),
        ("disposition", Json::text(verdict.disposition.word())),
        ("domain", applied_domain(verdict)),
        ("alignments", alignments(told)),
        ("names", names(told)),
        ("asked", Json::Number(verdict.asked)),
        (
            "reasons",
            Json::List(reasons(told).into_iter().map(Json::Text).collect()),
        ),
    ])
}

fn plain(octets: &[u8]) -> Json {
    Json::Text(String::from_utf8_lossy(octets).into_owned())
}

/// Null where no record applies.
fn applied_domain(verdict: &Verdict) -> Json {
    match verdict.domain.is_empty() {
        true => Json::Null,
        false => plain(&verdict.domain),
    }
}

fn alignments(told: &Told) -> Json {
    let given = told.sheet.message.identifiers.iter().enumerate();
    let alignment = |(index, given)| alignment(told, index, given);
    Json::List(given.map(alignment).collect())
}

fn alignment(told: &Told, index: usize, given: &GivenIdentifier) -> Json {
    let listed =
        |words: &[&'static str], number| Json::or_null(word(words, number).map(Json::text));
    let domain = told.message.identifiers.get(index);
    let alignment = told.verdict.alignments.get(index);
    Json::Object(vec![
        ("kind", listed(&KINDS, given.kind)),
        ("outcome", listed(&OUTCOMES, given.outcome)),
        (
            "domain",
            Json::or_null(domain.map(|own| plain(own.domain.octets()))),
        ),
        (
            "alignment",
            Json::or_null(alignment.map(|own| Json::text(own.word()))),
        ),
        ("reason", Json::Text(alignment_reason(told, index))),
    ])
}

fn names(told: &Told) -> Json {
    let name = |name: &Vec<u8>| {
        let answer = told.answer_kind(name).word();
        Json::Object(vec![("name", plain(name)), ("answer", Json::text(answer))])
    };
    let names = told.names.iter().map(|asked| name(&asked.name));
    Json::List(names.collect())
}
