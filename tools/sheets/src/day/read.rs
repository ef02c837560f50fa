//! The lines of a day.

use std::collections::HashMap;

use super::items::{domain, record, text};
use super::rows::{dkim, row, spf};
use super::times::seconds;
use super::{Day, DayRow, Given, RowIdentifier};
use crate::description::{each_line, Mistake, Token};
use crate::shown::brief;
use evaluator::rows::MOST_ROWS;

const ITEMS: &str = "a line begins with domain, record, organization, email, contact, receiver, \
                     id, begin, end, row, dkim or spf";
/// What stands before a quoted text.
const BEFORE_TEXTS: &str = "record, organization, email or contact";

pub fn read(description: &[u8]) -> Result<Day, Mistake> {
    let mut day = Day::default();
    each_line(description, BEFORE_TEXTS, |tokens, line| {
        match tokens.split_first() {
            None => Ok(()),
            Some((head, rest)) => item(&mut day, head.octets(), rest, line),
        }
    })?;
    check_differing(&day.rows)?;
    Ok(day)
}

/// Takes an item by its first word and the others.
fn item(day: &mut Day, head: &[u8], rest: &[Token], line: usize) -> Result<(), String> {
    let head_word = head.to_ascii_lowercase();
    match head_word.as_slice() {
        b"domain" => day.domain.set(line, "domain", domain(rest, "domain")?),
        b"record" => day.record.set(line, "record", record(rest)?),
        b"organization" => {
            let text = text(rest, "organization")?;
            day.organization.set(line, "organization", text)
        }
        b"email" => day.email.set(line, "email", text(rest, "email")?),
        b"contact" => day.contact.set(line, "contact", text(rest, "contact")?),
        b"receiver" => day
            .receiver
            .set(line, "receiver", domain(rest, "receiver")?),
        b"id" => day.id.set(line, "id", text(rest, "id")?),
        b"begin" => day.begin.set(line, "begin", seconds(rest)?),
        b"end" => day.end.set(line, "end", seconds(rest)?),
        b"row" => add_row(&mut day.rows, row(rest, line)?),
        b"spf" => add_identifier(&mut day.rows, spf(rest, line)?),
        b"dkim" => add_identifier(&mut day.rows, dkim(rest, line)?),
        _ => Err(format!("unknown item `{}`; {ITEMS}", brief(head))),
    }
}

/// Where what a line gives is put.
trait Slot<T> {
    /// Puts it there, if no other line gave it.
    fn set(&mut self, line: usize, item: &str, value: T) -> Result<(), String>;
}

impl<T> Slot<T> for Option<Given<T>> {
    fn set(&mut self, line: usize, item: &str, value: T) -> Result<(), String> {
        if let Some(first) = self {
            let line = first.line;
            return Err(format!("a second {item} line; the first is line {line}"));
        }
        *self = Some(Given { line, value });
        Ok(())
    }
}

fn add_row(rows: &mut Vec<DayRow>, row: DayRow) -> Result<(), String> {
    if rows.len() == MOST_ROWS {
        return Err(format!("a day has {MOST_ROWS} rows at the most"));
    }
    rows.push(row);
    Ok(())
}

fn add_identifier(rows: &mut [DayRow], identifier: RowIdentifier) -> Result<(), String> {
    let row = rows
        .last_mut()
        .ok_or("an identifier stands below its row")?;
    row.identifiers.push(identifier);
    Ok(())
}

/// That no row is given twice.
fn check_differing(rows: &[DayRow]) -> Result<(), Mistake> {
    let mut lines = HashMap::new();
    for row in rows {
        let line = row.line;
        if let Some(first) = lines.insert(row.key(), line) {
            let reason = format!("the row of line {first} again; give one with the sum of both");
            return Err(Mistake { line, reason });
        }
    }
    Ok(())
}
