//! The records that the walks met: the one that applies, others, texts that are
//! none, and names that were not asked.

use super::told::{plain, shown, Told};
use super::Paragraph;
use crate::policy_words::PolicyRecord;
use evaluator::domain::{Domain, MOST_TARGET_OCTETS, PREFIX};
use evaluator::grounds::{AppliedBy, Discovery};
use evaluator::walk::Found;

pub fn paragraphs(told: &Told) -> Vec<Paragraph> {
    let mut paragraphs = vec![policy_record(told)];
    for asked in told.names {
        paragraphs.extend(at_name(told, &asked.name));
    }
    paragraphs.extend(not_asked(told));
    paragraphs.push(organizational(told));
    paragraphs
}

/// Which record applied, and why.
fn policy_record(told: &Told) -> Paragraph {
    let said = match &told.grounds.discovery {
        Discovery::Applied(found, by) => return applied(told, found, *by),
        Discovery::Nothing => "none; the author's walk found no record that applies".to_string(),
        Discovery::Error => {
            let ended = told.ended_in_error(&told.grounds.author);
            format!("not known; the author's walk {ended}")
        }
    };
    Paragraph::new(format!("policy record: {said}"))
}

fn applied(told: &Told, found: &Found, by: AppliedBy) -> Paragraph {
    let whose = match by {
        AppliedBy::Own => "the author domain's own",
        AppliedBy::Organizational => "that of the author's organizational domain",
        AppliedBy::PsdYes => "the one with psd=y; the organizational domain has none",
    };
    let line = format!("policy record: at {}, {whose}", shown(&found.domain));
    let paragraph = Paragraph::new(line);
    let name = found.domain.asked_name().unwrap_or_default();
    let texts = told.sheet.texts(&name);
    match sorted(&texts).records.as_slice() {
        [(text, record)] => {
            let not_usable = record.not_usable();
            let not_usable = not_usable.map(|why| format!("not usable, since {why}"));
            paragraph
                .text(text)
                .details(not_usable)
                .details(record.faults())
        }
        _ => paragraph,
    }
}

/// The texts at a name: its policy records, and the others with why they are none.
struct Sorted<'t> {
    records: Vec<(&'t [u8], PolicyRecord<'t>)>,
    others: Vec<(&'t [u8], String)>,
}

fn sorted(texts: &[Vec<u8>]) -> Sorted<'_> {
    let (mut records, mut others) = (Vec::new(), Vec::new());
    for text in texts {
        match PolicyRecord::read(text) {
            Ok(record) => records.push((text.as_slice(), record)),
            Err(why) => others.push((text.as_slice(), why)),
        }
    }
    Sorted { records, others }
}

/// What stood at an asked name beside the record that applies.
fn at_name(told: &Told, name: &[u8]) -> Vec<Paragraph> {
    let domain = plain(name.strip_prefix(PREFIX).unwrap_or(name));
    let texts = told.sheet.texts(name);
    let Sorted { records, others } = sorted(&texts);
    let mut paragraphs = Vec::new();
    for (text, why) in others {
        let line = format!("a text at {domain} is no policy record: {why}");
        paragraphs.push(Paragraph::new(line).text(text));
    }
    match records.as_slice() {
        [] => {}
        [(text, record)] if !applies(told, name) => {
            let line = Paragraph::new(format!("also met: the record at {domain}"));
            paragraphs.push(line.text(text).details(record.faults()));
        }
        [_] => {}
        several => {
            let count = several.len();
            let line = format!("{count} policy records at {domain}, so all of them are dropped");
            let dropped = Paragraph::new(line);
            let texts = several.iter().map(|(text, _)| text);
            paragraphs.push(texts.fold(dropped, |dropped, text| dropped.text(text)));
        }
    }
    paragraphs
}

/// Whether the record that applies is the one at a name.
fn applies(told: &Told, name: &[u8]) -> bool {
    let applied = told.grounds.applied();
    applied
        .and_then(|found| found.domain.asked_name())
        .as_deref()
        == Some(name)
}

/// The targets of the walks that are too long to be asked.
fn not_asked(told: &Told) -> Vec<Paragraph> {
    let mut targets: Vec<Domain> = Vec::new();
    for walk in told.grounds.walks() {
        let looked = walk.start.walk_targets().into_iter().take(walk.looked);
        for target in looked.filter(|target| target.asked_name().is_none()) {
            if !targets.contains(&target) {
                targets.push(target);
            }
        }
    }
    let why = format!("over {MOST_TARGET_OCTETS} octets, so it counts as none");
    let line = |target: &Domain| format!("not asked: {}, {why}", shown(target));
    targets
        .iter()
        .map(|target| Paragraph::new(line(target)))
        .collect()
}

fn organizational(told: &Told) -> Paragraph {
    let grounds = told.grounds;
    let said = match &grounds.organizational {
        Some(domain) => shown(domain),
        None if grounds.completed => {
            format!(
                "not known; the walk {}",
                told.ended_in_error(&grounds.author)
            )
        }
        None => "not needed".to_string(),
    };
    Paragraph::new(format!("author's organizational domain: {said}"))
}
