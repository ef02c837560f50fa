//! Faults that leave the sheet well-formed, or answer a name twice.

use crate::generate::draft::{walk_names, Draft, DraftAnswer, DraftIdentifier};
use crate::generate::{domains, texts};
use crate::random::Random;
use crate::written::Record;
use evaluator::domain::without_dot;
use evaluator::txt::MOST_ANSWER_OCTETS;

/// One that stands here twice comes twice as often.
pub const DRAFT_FAULTS: &[fn(&mut Random, &mut Draft)] = &[
    bad_author,
    bad_author,
    bad_identifier,
    bad_identifier,
    unlisted_message_number,
    unlisted_identifier_number,
    many_identifiers,
    many_identifiers,
    two_spf,
    two_spf,
    unreadable_answer,
    unreadable_answer,
    unreadable_answer,
    limit_answer,
    limit_answer,
    limit_answer,
    repeating_answer,
    repeating_answer,
    repeating_answer,
    second_answer,
    second_answer,
    bad_answer_name,
    bad_answer_name,
    final_dots,
    final_dots,
];

fn bad_author(random: &mut Random, draft: &mut Draft) {
    draft.author = domains::bad(random);
}

fn bad_identifier(random: &mut Random, draft: &mut Draft) {
    if draft.identifiers.is_empty() {
        add_identifier(random, draft, 1);
    }
    let at = random.below(draft.identifiers.len());
    if let Some(identifier) = draft.identifiers.get_mut(at) {
        identifier.domain = domains::bad(random);
    }
}

fn unlisted_message_number(random: &mut Random, draft: &mut Draft) {
    let number = random.pick(&[3, 4, 49, 127, 128, 255]);
    match random.percent(50) {
        true => draft.existence = number,
        false => draft.support = random.pick(&[2, 3, number]),
    }
}

fn unlisted_identifier_number(random: &mut Random, draft: &mut Draft) {
    if draft.identifiers.is_empty() {
        add_identifier(random, draft, 1);
    }
    let at = random.below(draft.identifiers.len());
    let number = random.pick(&[3, 4, 49, 128, 255]);
    if let Some(identifier) = draft.identifiers.get_mut(at) {
        match random.percent(50) {
            true => identifier.kind = random.pick(&[2, number]),
            false => identifier.outcome = number,
        }
    }
}

fn add_identifier(random: &mut Random, draft: &mut Draft, kind: u8) {
    let domain = domains::identifier(random, &draft.author, &[]);
    let at = random.below(draft.identifiers.len() + 1);
    let identifier = DraftIdentifier {
        kind,
        outcome: random.pick(&[0, 1, 2]),
        domain,
    };
    draft.identifiers.insert(at, identifier);
}

fn many_identifiers(random: &mut Random, draft: &mut Draft) {
    let count = random.pick(&[15, 16, 17, 17, 18, 18, 40]);
    while draft.identifiers.len() < count {
        add_identifier(random, draft, 1);
    }
    // The 17th with another fault: "3, 4, 2".
    if let Some(last) = draft.identifiers.get_mut(16) {
        match random.below(4) {
            0 => last.kind = random.pick(&[0, 7]),
            1 => last.domain = domains::bad(random),
            _ => {}
        }
    }
}

fn two_spf(random: &mut Random, draft: &mut Draft) {
    add_identifier(random, draft, 0);
    if random.percent(80) {
        add_identifier(random, draft, 0);
    }
    if random.percent(15) {
        for identifier in &mut draft.identifiers {
            identifier.domain = domains::bad(random);
        }
    }
}

/// Gives an answer of the draft other bytes: mostly the author's own, so that it
/// is asked, else any, else one that is never asked.
fn spoil_answer(random: &mut Random, draft: &mut Draft, bytes: Vec<u8>) {
    let names = walk_names(&draft.author);
    let name = match random.below(10) {
        0..=5 => names.first().cloned(),
        6 | 7 => names.get(random.below(names.len())).cloned(),
        _ => {
            let at = random.below(draft.answers.len());
            draft.answers.get(at).map(|answer| answer.name.clone())
        }
    };
    let name = name.unwrap_or_else(|| b"_dmarc.never-asked.example".to_vec());
    let status = 0;
    let plain = without_dot(&name);
    let same = |answer: &&mut DraftAnswer| without_dot(&answer.name).eq_ignore_ascii_case(plain);
    match draft.answers.iter_mut().find(same) {
        Some(answer) => (answer.status, answer.bytes) = (status, bytes),
        None => draft.answers.push(DraftAnswer {
            status,
            name,
            bytes,
        }),
    }
}

fn unreadable_answer(random: &mut Random, draft: &mut Draft) {
    let good = texts::plain_answer(random, 10);
    let bad: &[u8] = match random.below(12) {
        0 => b"T",
        1 => b"TX",
        2 => b"TX\0",
        3 => b"TX\0\0",
        4 => b"tx\0\x02\x01a",
        5 => b"TY\0\x02\x01a",
        6 => b"TX\0\x03\x01a",
        7 => b"TX\0\x02\x02a",
        8 => b"TX\0\x04\x01a\x02b",
        9 => b"TX\xff\xff\x01a",
        10 => b"\0",
        _ => b"TX\x02\0\x01a",
    };
    let bytes = match random.below(3) {
        0 => bad.to_vec(),
        1 => [good.as_slice(), bad].concat(),
        _ => {
            let cut = random.between(1, good.len().saturating_sub(1));
            good.get(..cut).unwrap_or_default().to_vec()
        }
    };
    spoil_answer(random, draft, bytes);
}

/// An answer at or over a limit.
fn limit_answer(random: &mut Random, draft: &mut Draft) {
    let head = texts::plain_answer(random, 10);
    let bytes = match random.below(8) {
        0 | 1 => filled(head, MOST_ANSWER_OCTETS, 1),
        2 => filled(head, MOST_ANSWER_OCTETS + 1, 1),
        3 => filled(head, MOST_ANSWER_OCTETS, 15),
        4 => filled(head, MOST_ANSWER_OCTETS, 16),
        5 => short_records(head, 15),
        6 => short_records(head, 16),
        _ => {
            let octets = random.between(4090, 12_000);
            filled(head, octets, 2)
        }
    };
    spoil_answer(random, draft, bytes);
}

/// An answer whose texts have a tag twice, or nearly so.
fn repeating_answer(random: &mut Random, draft: &mut Draft) {
    let bytes = texts::repeating_answer(random, 30);
    spoil_answer(random, draft, bytes);
}

/// A good record and so many more of one empty string each.
fn short_records(mut bytes: Vec<u8>, more: usize) -> Vec<u8> {
    for _ in 0..more {
        bytes.extend(b"TX\0\x01\0");
    }
    bytes
}

/// A good record and so many more, filling so many octets in all.
fn filled(head: Vec<u8>, octets: usize, more: usize) -> Vec<u8> {
    let mut bytes = short_records(head, more.saturating_sub(1));
    let room = octets.saturating_sub(bytes.len() + 4);
    let mut rdata = Vec::new();
    while rdata.len() < room {
        let length = (room - rdata.len() - 1).min(255);
        rdata.push(length as u8);
        rdata.resize(rdata.len() + length, b'f');
    }
    let _ = Record::new(b"TX", &rdata).push(&mut bytes);
    bytes
}

/// A name answered twice, in either case, with a final dot or without, asked or
/// not.
fn second_answer(random: &mut Random, draft: &mut Draft) {
    let at = random.below(draft.answers.len());
    let Some(first) = draft.answers.get(at).cloned() else {
        return;
    };
    let mut second = first;
    let plain = without_dot(&second.name).to_vec();
    second.name = domains::recased(random, plain, 60);
    second.name = domains::dotted(random, second.name, 40);
    if random.percent(60) {
        second.status = random.pick(&[1, 2]);
        second.bytes = Vec::new();
    }
    let to = random.between(0, draft.answers.len());
    draft.answers.insert(to, second);
}

/// One final dot more, which is no fault if it is the first, or two, or three.
fn final_dots(random: &mut Random, draft: &mut Draft) {
    let (identifiers, answers) = (draft.identifiers.len(), draft.answers.len());
    let text = match random.below(3) {
        0 => Some(&mut draft.author),
        1 => draft
            .identifiers
            .get_mut(random.below(identifiers))
            .map(|identifier| &mut identifier.domain),
        _ => draft
            .answers
            .get_mut(random.below(answers))
            .map(|answer| &mut answer.name),
    };
    let dots = random.pick(&[".", "..", "..."]);
    if let Some(text) = text.filter(|text| text.len() + dots.len() <= 255) {
        text.extend(dots.bytes());
    }
}

fn bad_answer_name(random: &mut Random, draft: &mut Draft) {
    let name = match random.percent(50) {
        true => [b"_dmarc.".as_slice(), &domains::bad(random)].concat(),
        false => domains::bad(random),
    };
    let name = name.get(..name.len().min(255)).unwrap_or_default().to_vec();
    let to = random.below(draft.answers.len() + 1);
    let status = random.pick(&[1, 2]);
    draft.answers.insert(
        to,
        DraftAnswer {
            status,
            name,
            bytes: Vec::new(),
        },
    );
}
