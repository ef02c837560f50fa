//! The report and the subject by the safe interface.

use super::{Asked, Told};
use crate::calls::safe::refusal;
use crate::reports::day::Subject;
use evaluator::lists::{self, Meant, Member};
use evaluator::message;
use evaluator::rows::Seen;
use records::code::RecordNumbers;
use waslidhaj::policy::{Mode, Psd, Request, Settings};
use waslidhaj::{DayList, Kind, Outcome, Report, ReportLists, ReportedIdentifier, Row};

pub fn report(asked: &Asked<'_>, out: &mut [u8]) -> Told {
    let list = DayList::from_raw(asked.list);
    let written = typed(asked).write(&list, asked.rows, asked.lists, out);
    Told(written.map_err(refusal))
}

pub fn subject(subject: &Subject, out: &mut [u8]) -> Told {
    let typed = waslidhaj::Subject {
        receiver: &subject.receiver,
        domain: &subject.domain,
        id: &subject.id,
    };
    Told(typed.write(out).map_err(refusal))
}

/// Holds the report as a text of its own to what was told, where there was just room for
/// it, or it was refused otherwise than for its room: once of the lists as they are, and
/// once of ones made by `ReportLists`.
pub fn same_text(asked: &Asked<'_>, told: Told, out: &[u8]) -> Result<(), String> {
    let expected = match told.0 {
        Ok(length) if length == out.len() => Ok(out.to_vec()),
        Err(own) if own.number != 10 => Err(own),
        _ => return Ok(()),
    };
    let list = DayList::from_raw(asked.list);
    let text = typed(asked).text(&list, asked.rows, asked.lists);
    if text.map_err(refusal) != expected {
        return Err("the report as a text of its own differs in Rust".to_string());
    }
    let Some((rows, beside)) = listed(asked) else {
        return Ok(());
    };
    let text = typed(asked).text(&list, &rows, beside.lists());
    match text.map_err(refusal) == expected {
        true => Ok(()),
        false => Err("the report beside lists made in Rust differs".to_string()),
    }
}

fn typed<'a>(asked: &Asked<'a>) -> Report<'a> {
    Report {
        reporter: asked.reporter,
        settings: settings(asked.numbers),
    }
}

/// The settings of any numbers.
fn settings(numbers: RecordNumbers) -> Settings {
    let request = |number| match number {
        0 => Request::None,
        1 => Request::Quarantine,
        2 => Request::Reject,
        3 => Request::Absent,
        _ => Request::Invalid,
    };
    let mode = |number| match number {
        1 => Mode::Strict,
        _ => Mode::Relaxed,
    };
    Settings {
        p: request(numbers.p),
        sp: request(numbers.sp),
        np: request(numbers.np),
        adkim: mode(numbers.adkim),
        aspf: mode(numbers.aspf),
        psd: match numbers.psd {
            1 => Psd::Yes,
            2 => Psd::No,
            _ => Psd::Unset,
        },
        t: numbers.t == 1,
    }
}

/// The rows with a count, their numbers in lists made by `ReportLists`; nothing where
/// one of their numbers stands for nothing.
fn listed(asked: &Asked<'_>) -> Option<(Vec<Row>, ReportLists)> {
    let given = lists::Lists {
        authors: asked.lists.authors,
        sets: asked.lists.sets,
    };
    let (given, mut beside) = (given.read(), ReportLists::new());
    let mut rows = Vec::new();
    for row in asked.rows.iter().take(256).filter(|row| row.count > 0) {
        let seen = Seen {
            author: row.seen.author,
            set: row.seen.set,
            ..Seen::default()
        };
        let mut own = *row;
        (own.seen.author, own.seen.set) = places(&mut beside, &given.meant(&seen)?)?;
        rows.push(own);
    }
    Some((rows, beside))
}

/// Where an author domain and a set stand.
fn places(beside: &mut ReportLists, meant: &Meant) -> Option<(u32, u32)> {
    let set: Vec<ReportedIdentifier> = meant.set.iter().map(reported).collect();
    Some((beside.author(meant.author)?, beside.set(&set)?))
}

fn reported<'a>(member: &Member<'a>) -> ReportedIdentifier<'a> {
    ReportedIdentifier {
        kind: match member.kind {
            message::Kind::Spf => Kind::Spf,
            message::Kind::Dkim => Kind::Dkim,
        },
        outcome: match member.outcome {
            message::Outcome::NotPassing => Outcome::NotPassing,
            message::Outcome::Pass => Outcome::Pass,
            message::Outcome::TemporaryError => Outcome::TemporaryError,
        },
        selector: member.selector,
        domain: member.domain,
    }
}
