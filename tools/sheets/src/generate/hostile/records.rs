//! Faults of a sheet's records.

// The faults of one list share one form, whether or not they change the length.
#![allow(clippy::ptr_arg)]

use crate::random::Random;
use crate::written::Record;

/// Marks of a sheet, and others.
pub const MARKS: &[[u8; 2]] = &[
    *b"XX", *b"au", *b"id", *b"an", *b"TX", *b"\0\0", *b"AU", *b"ID", *b"AN",
];

/// One that stands here twice comes twice as often.
pub const RECORD_FAULTS: &[fn(&mut Random, &mut Vec<Record>)] = &[
    other_mark,
    other_order,
    other_order,
    other_status,
    short_body,
    short_body,
    octets_after_name,
];

fn any_record<'r>(random: &mut Random, records: &'r mut [Record]) -> Option<&'r mut Record> {
    let at = random.below(records.len());
    records.get_mut(at)
}

/// One of the answers, if there is one.
fn any_answer<'r>(random: &mut Random, records: &'r mut [Record]) -> Option<&'r mut Record> {
    let mut answers: Vec<&mut Record> = records
        .iter_mut()
        .filter(|record| record.mark == *b"AN")
        .collect();
    let at = random.below(answers.len());
    (at < answers.len()).then(|| answers.swap_remove(at))
}

fn other_mark(random: &mut Random, records: &mut Vec<Record>) {
    if let Some(record) = any_record(random, records) {
        record.mark = random.pick(MARKS);
    }
}

fn other_order(random: &mut Random, records: &mut Vec<Record>) {
    let (from, to) = (random.below(records.len()), random.below(records.len()));
    match random.below(4) {
        0 => records.swap(from, to),
        1 => records.rotate_left(to),
        2 => {
            let first = records.first().cloned();
            records.splice(to..to, first);
        }
        _ => {
            records.push(Record::identifier(1, 1, b"late.example"));
        }
    }
}

fn other_status(random: &mut Random, records: &mut Vec<Record>) {
    let status = random.pick(&[3, 4, 48, 49, 128, 255]);
    if let Some(octet) = any_answer(random, records).and_then(|record| record.body.first_mut()) {
        *octet = status;
    }
}

fn short_body(random: &mut Random, records: &mut Vec<Record>) {
    let most = random.pick(&[0, 1, 2, 3, 10]);
    if let Some(record) = any_record(random, records) {
        record.body.truncate(most);
    }
}

/// Octets after the name of an answer, which status 1 and 2 forbid.
fn octets_after_name(random: &mut Random, records: &mut Vec<Record>) {
    let octets = random.pick(&[b"x".as_slice(), b"\0", b"TX\0\x02\x01a"]);
    if let Some(record) = any_answer(random, records) {
        record.body.extend(octets);
    }
}
