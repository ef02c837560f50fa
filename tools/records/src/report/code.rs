//! The proved calls that write a report.

use super::Written;
use evaluator::refusal::Refusal;
use sheets::day::{Complete, DayRow, RowIdentifier, SPF};
use sheets::handed::in_file;
use waslidhaj::{mapped, policy, DayList, FileName, Kind, Outcome, Report, Reporter};
use waslidhaj::{ReportLists, ReportedIdentifier, Row, Seen, Subject};

/// Rows, and the lists beside them.
#[derive(Default)]
struct Lent {
    rows: Vec<Row>,
    beside: ReportLists,
}

/// What the proved code writes, or its refusal; the error is a mistake of a line.
pub fn written(day: &Complete) -> Result<Result<Written, Refusal>, String> {
    let mistake = |line: usize, why: &str| in_file(day.name, &format!("line {line}: {why}"));
    let record = policy::read(&day.record.value);
    let record = record.ok_or_else(|| mistake(day.record.line, "no policy record"))?;
    let mut lent = Lent::default();
    for row in day.rows {
        lent.add(row).ok_or_else(|| mistake(row.line, TOO_LONG))?;
    }
    let written = write(day, &lent, record.settings);
    Ok(written.map_err(|own| Refusal::new(own.number, own.place)))
}

const TOO_LONG: &str =
    "the row's author domain or all its identifiers are longer than the 65535 octets of a list's \
     record";

impl Lent {
    /// Adds a row as it stands in the description: entering its verdicts one by one
    /// would take a call for each, up to 4,294,967,295, and come to the same.
    fn add(&mut self, row: &DayRow) -> Option<()> {
        let identifiers: Vec<ReportedIdentifier> = row.identifiers.iter().map(reported).collect();
        let seen = Seen {
            source: mapped(row.source),
            disposition: row.disposition,
            dkim: u8::from(row.dkim),
            spf: u8::from(row.spf),
            spare: 0,
            author: self.beside.author(&row.author)?,
            set: self.beside.set(&identifiers)?,
        };
        let count = row.count;
        self.rows.push(Row { seen, count });
        Some(())
    }
}

fn reported(own: &RowIdentifier) -> ReportedIdentifier<'_> {
    ReportedIdentifier {
        kind: match own.kind {
            SPF => Kind::Spf,
            _ => Kind::Dkim,
        },
        outcome: match own.outcome {
            0 => Outcome::NotPassing,
            1 => Outcome::Pass,
            _ => Outcome::TemporaryError,
        },
        selector: &own.selector,
        domain: &own.domain,
    }
}

/// The list is cleared for its policy domain first, with no row lent, since that sets
/// the counts to 0.
fn write(
    day: &Complete,
    lent: &Lent,
    settings: policy::Settings,
) -> Result<Written, waslidhaj::Refusal> {
    let mut list = DayList::new();
    list.clear(&day.domain.value, &mut [])?;
    let reporter = reporter(day);
    let report = Report { reporter, settings };
    Ok(Written {
        report: report.text(&list, &lent.rows, lent.beside.lists())?,
        name: name(day)?,
        subject: subject(day)?,
    })
}

fn reporter<'a>(day: &Complete<'a>) -> Reporter<'a> {
    Reporter {
        organization: &day.organization.value,
        email: &day.email.value,
        contact: day.contact.map_or(&[], |own| &own.value),
        id: &day.id.value,
        begin: day.begin.value,
        end: day.end.value,
    }
}

fn name(day: &Complete) -> Result<Vec<u8>, waslidhaj::Refusal> {
    let name = FileName {
        receiver: &day.receiver.value,
        domain: &day.domain.value,
        begin: day.begin.value,
        end: day.end.value,
        id: Some(&day.id.value),
    };
    filled(FileName::OCTETS, |out| name.write(out))
}

fn subject(day: &Complete) -> Result<Vec<u8>, waslidhaj::Refusal> {
    let subject = Subject {
        receiver: &day.receiver.value,
        domain: &day.domain.value,
        id: &day.id.value,
    };
    filled(Subject::OCTETS, |out| subject.write(out))
}

/// What is written into so many octets.
fn filled(
    octets: usize,
    write: impl FnOnce(&mut [u8]) -> Result<usize, waslidhaj::Refusal>,
) -> Result<Vec<u8>, waslidhaj::Refusal> {
    let mut out = vec![0; octets];
    let length = write(&mut out)?;
    out.truncate(length);
    Ok(out)
}
