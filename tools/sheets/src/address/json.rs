//! An address check as an object of JSON.

use super::advice::{cautions, send};
use super::reasons::{shown, why};
use super::refused::meaning;
use super::words::answer_words;
use super::{plain, AddressHanded, Came, Told};
use crate::json::Json;
use evaluator::address::{Outcome, Verdict};
use evaluator::domain::Domain;
use evaluator::refusal::Refusal;

/// The verdict with its reasons, the next name to ask, or the refusal with its
/// meaning.
pub fn json(handed: &AddressHanded) -> Json {
    let told = Told::new(handed);
    match &told.ran.came {
        Came::Refused(refusal, name) => refused(handed, *refusal, name.as_deref()),
        Came::Next(name) => {
            let mut members = vec![("next", Json::text(plain(name)))];
            members.extend(names(&told));
            Json::Object(members)
        }
        Came::Verdict(verdict) => verdict_json(&told, verdict),
    }
}

fn refused(handed: &AddressHanded, refusal: Refusal, name: Option<&[u8]>) -> Json {
    let meaning = meaning(handed, refusal, name);
    let line = name.and_then(|name| handed.given(name));
    let name = name.map(|own| Json::text(plain(own)));
    Json::Object(vec![
        ("refused", Json::Number(usize::from(refusal.number))),
        ("at", Json::Number(refusal.place)),
        ("meaning", Json::Text(meaning)),
        ("name", Json::or_null(name)),
        (
            "line",
            Json::or_null(line.map(|own| Json::Number(own.line))),
        ),
    ])
}

/// The two domains, and the names that have an answer.
fn names(told: &Told) -> Vec<(&'static str, Json)> {
    let Some((address, check)) = &told.started else {
        return Vec::new();
    };
    let name = |name: &Vec<u8>| {
        let answer = answer_words(told.handed, name)?;
        let name = Json::text(plain(name));
        Some(Json::Object(vec![
            ("name", name),
            ("answer", Json::text(answer)),
        ]))
    };
    let names = check.names.iter().filter_map(|asked| name(&asked.name));
    vec![
        ("policy_domain", Json::text(shown(&address.policy))),
        ("host", Json::text(shown(&address.host))),
        ("names", Json::List(names.collect())),
    ]
}

fn verdict_json(told: &Told, verdict: &Verdict) -> Json {
    let mut members = vec![("agreement", Json::text(verdict.outcome.word()))];
    members.extend(names(told));
    members.push(("asked", Json::Number(verdict.asked)));
    if let Some(why) = why(told) {
        let [policy, host] = why.organizational;
        let domain = |own: Option<Domain>| Json::or_null(own.map(|own| Json::text(shown(&own))));
        members.push(("organizational_domain", domain(policy)));
        members.push(("host_organizational_domain", domain(host)));
        members.push(("reasons", texts([vec![why.said], why.details].concat())));
    }
    members.push(("replaced_by", Json::or_null(replaced_by(told, verdict))));
    members.push(("send", texts(send(told))));
    members.push(("cautions", texts(cautions(told))));
    Json::Object(members)
}

fn texts(texts: Vec<String>) -> Json {
    Json::List(texts.into_iter().map(Json::Text).collect())
}

/// The text that takes the address's place, and where it stands in the scratch.
fn replaced_by(told: &Told, verdict: &Verdict) -> Option<Json> {
    let Outcome::Replaced { begin, length } = verdict.outcome else {
        return None;
    };
    Some(Json::Object(vec![
        ("text", Json::text(plain(&told.ran.text))),
        ("begin", Json::Number(begin)),
        ("length", Json::Number(length)),
    ]))
}
