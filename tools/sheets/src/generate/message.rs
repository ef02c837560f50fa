//! Messages that are accepted, with their answers.

use std::collections::HashSet;

use super::draft::{walk_names, Draft, DraftAnswer, DraftIdentifier};
use super::{domains, texts};
use crate::random::Random;
use evaluator::sheet::MOST_OCTETS;

/// How often the names of one sheet answer in which way, in percent.
struct Weather {
    error: usize,
    missing: usize,
    record: usize,
    psd: usize,
}

fn weather(random: &mut Random) -> Weather {
    Weather {
        error: random.pick(&[0, 0, 0, 3, 15]),
        missing: random.pick(&[0, 0, 0, 0, 3, 15]),
        record: random.pick(&[5, 15, 30, 60]),
        psd: random.pick(&[0, 10, 30, 60]),
    }
}

/// A valid message with its answers, some domains with a final dot.
pub fn draft(random: &mut Random) -> Draft {
    let mut draft = match random.below(150) {
        0 => wide_draft(random),
        _ => usual_draft(random),
    };
    add_dots(random, &mut draft);
    let mut length = draft.octets().len();
    while length > MOST_OCTETS {
        let dropped = draft.answers.pop().map(|answer| answer.record().body.len());
        length = length.saturating_sub(dropped.map_or(length, |body| body + 4));
    }
    draft
}

/// Final dots in few of its domains and names, or in many.
fn add_dots(random: &mut Random, draft: &mut Draft) {
    let rate = random.pick(&[0, 0, 4, 40]);
    let identifiers = draft.identifiers.iter_mut().map(|own| &mut own.domain);
    let names = draft.answers.iter_mut().map(|answer| &mut answer.name);
    for domain in [&mut draft.author]
        .into_iter()
        .chain(identifiers)
        .chain(names)
    {
        *domain = domains::dotted(random, std::mem::take(domain), rate);
    }
}

fn usual_draft(random: &mut Random) -> Draft {
    let author = domains::author(random);
    let mut draft = Draft {
        existence: random.pick(&[0, 1, 1, 2]),
        support: random.pick(&[0, 1]),
        identifiers: identifiers(random, &author),
        author,
        answers: Vec::new(),
    };
    add_answers(random, &mut draft);
    draft
}

/// A message of many long walks that share few names, or none.
fn wide_draft(random: &mut Random) -> Draft {
    let (count, least) = (random.between(12, 16), random.pick(&[7, 8]));
    let mut draft = Draft {
        author: domains::deep(random, least, 0),
        existence: 1,
        support: random.pick(&[0, 1]),
        ..Draft::default()
    };
    for number in 1..=count {
        let shared = if random.percent(90) { number } else { 0 };
        draft.identifiers.push(DraftIdentifier {
            kind: 1,
            outcome: 1,
            domain: domains::deep(random, least, shared),
        });
    }
    for (index, name) in distinct(draft.names()).into_iter().enumerate() {
        let record = index == 0 || random.percent(5);
        let bytes = match record {
            true => texts::wide_answer(random),
            false => Vec::new(),
        };
        let status = u8::from(!record);
        draft.answers.push(DraftAnswer {
            status,
            name,
            bytes,
        });
    }
    draft
}

/// Each name once, where it first comes.
fn distinct(mut names: Vec<Vec<u8>>) -> Vec<Vec<u8>> {
    let mut seen = HashSet::new();
    names.retain(|name| seen.insert(name.clone()));
    names
}

fn identifiers(random: &mut Random, author: &[u8]) -> Vec<DraftIdentifier> {
    let count = match random.below(100) {
        0..=11 => 0,
        12..=41 => 1,
        42..=63 => 2,
        64..=79 => random.between(3, 4),
        80..=92 => random.between(5, 10),
        _ => random.between(11, 16),
    };
    let spf_at = random.percent(60).then(|| random.below(count));
    let trouble = random.pick(&[0, 0, 10, 30]);
    let mut domains: Vec<Vec<u8>> = Vec::new();
    let mut identifiers = Vec::new();
    for index in 0..count {
        let domain = domains::identifier(random, author, &domains);
        domains.push(domain.clone());
        let outcome = match random.below(100) {
            roll if roll < trouble => 2,
            roll if roll < trouble + 15 => 0,
            _ => 1,
        };
        identifiers.push(DraftIdentifier {
            kind: u8::from(spf_at != Some(index)),
            outcome,
            domain,
        });
    }
    identifiers
}

fn add_answers(random: &mut Random, draft: &mut Draft) {
    let weather = weather(random);
    let own = walk_names(&draft.author);
    // A policy record at the author's own name, or at a name above it.
    let policy_at = random.percent(85).then(|| match random.percent(45) {
        true => 0,
        false => random.below(own.len()),
    });
    let policy_name = policy_at.and_then(|at| own.get(at)).cloned();
    let mut names = draft.names();
    names.extend(unasked(random));
    for name in distinct(names) {
        let applied = Some(&name) == policy_name.as_ref();
        let answer = answer(random, name, applied, &weather);
        draft.answers.extend(answer);
    }
    if random.percent(25) {
        random.shuffle(&mut draft.answers);
    }
}

/// Names that are answered without being asked.
fn unasked(random: &mut Random) -> Vec<Vec<u8>> {
    if !random.percent(15) {
        return Vec::new();
    }
    let count = random.between(1, 3);
    let names = (0..count).map(|number| format!("_dmarc.unasked-{number}.example"));
    names
        .chain(["example.com".to_string()])
        .map(String::into_bytes)
        .collect()
}

fn answer(
    random: &mut Random,
    name: Vec<u8>,
    applied: bool,
    weather: &Weather,
) -> Option<DraftAnswer> {
    let (status, bytes) = if applied && random.percent(80) {
        (0, texts::plain_answer(random, weather.psd))
    } else if random.percent(weather.missing) {
        return None;
    } else if random.percent(weather.error) {
        (2, Vec::new())
    } else if applied || random.percent(weather.record) {
        (0, texts::answer(random, weather.psd))
    } else {
        // "Zero bytes is the same as none."
        (u8::from(random.percent(95)), Vec::new())
    };
    let name = domains::recased(random, name, 10);
    Some(DraftAnswer {
        status,
        name,
        bytes,
    })
}
