//! Ask 9 of document 02: the aggregate report as XML, "from Ask 1's rows, the
//! reporter's texts organization, email and extra contact, report id, begin, end, and
//! the policy published at the list's domain as 01 reads it".

mod schema;
mod source;
mod xml;

use crate::domain::Domain;
use crate::lists::{Lists, Meant, Member};
use crate::message::{Kind, Outcome};
use crate::policy::parts::printing;
use crate::policy::{Policy, Settings, Usable};
use crate::refusal::Refusal;
use crate::report::{bad_id, lend, written};
use crate::rows::{DayList, Row, MOST_ROWS};

/// "a text over 4,096 octets", counted before entities
pub const MOST_TEXT_OCTETS: usize = 4096;
/// The longest report has so many octets.
pub const MOST_OCTETS: usize = 2_592_802;

/// What the reporter says of itself and of the report.
#[derive(Clone, Copy, Debug, Default, PartialEq, Eq)]
pub struct Reporter<'a> {
    pub organization: &'a [u8],
    pub email: &'a [u8],
    /// The extra contact, which may be empty.
    pub contact: &'a [u8],
    pub id: &'a [u8],
    pub begin: u64,
    pub end: u64,
}

/// All that a report is written from.
#[derive(Clone, Copy, Debug)]
pub struct Inputs<'a> {
    pub list: &'a DayList,
    pub rows: &'a [Row],
    pub lists: Lists<'a>,
    pub settings: Settings,
    pub reporter: Reporter<'a>,
}

/// A report that can be written, but for the memory that it needs.
#[derive(Clone, Debug)]
pub struct Feedback<'a> {
    reporter: Reporter<'a>,
    domain: Domain,
    policies: Usable,
    settings: Settings,
    records: Vec<Record>,
}

/// "one record element per row with a count"
#[derive(Clone, Debug)]
struct Record {
    row: Row,
    author: Domain,
    dkim: Vec<Dkim>,
    /// "a second SPF" is refused
    spf: Option<Spf>,
}

#[derive(Clone, Debug)]
struct Dkim {
    domain: Domain,
    selector: Domain,
    outcome: Outcome,
}

#[derive(Clone, Debug)]
struct Spf {
    domain: Domain,
    outcome: Outcome,
}

/// Writes the report: "order 27 (never cleared), 18, 28, 19, 11, 10".
pub fn report(inputs: &Inputs, out: &mut [u8]) -> Result<usize, Refusal> {
    lend(&text(inputs)?, out)
}

/// The whole report, whatever memory is lent for it.
pub fn text(inputs: &Inputs) -> Result<Vec<u8>, Refusal> {
    let mut text = Vec::with_capacity(MOST_OCTETS);
    Feedback::of(inputs)?.write(&mut text);
    Ok(text)
}

impl<'a> Feedback<'a> {
    /// The report of these inputs, or the first of 27, 18, 28, 19 and 11.
    pub fn of(inputs: &Inputs<'a>) -> Result<Feedback<'a>, Refusal> {
        let domain = inputs.list.domain().ok_or(Refusal::new(27, 0))?;
        let rows = counted(inputs.rows);
        if rows.is_empty() {
            return Err(Refusal::new(18, 0));
        }
        let listed = inputs.lists.read();
        let meant: Option<Vec<Meant>> = rows.iter().map(|row| listed.meant(&row.seen)).collect();
        let meant = meant.ok_or(Refusal::new(28, 0))?;
        if inputs.reporter.bad_text() {
            return Err(Refusal::new(19, 0));
        }
        if inputs.reporter.bad_id_or_times() {
            return Err(Refusal::new(11, 0));
        }
        let records = rows.into_iter().zip(&meant);
        let records = records.map(|(row, meant)| Record::of(row, meant));
        Ok(Feedback {
            reporter: inputs.reporter,
            domain: policy_domain(domain)?,
            policies: published(&inputs.settings),
            settings: inputs.settings,
            records: records.collect::<Result<_, Refusal>>()?,
        })
    }

    /// Writes the report behind what is there.
    pub fn write(&self, text: &mut Vec<u8>) {
        schema::write(self, text);
    }
}

/// The list's domain lost its final dot when the list was cleared; one that has a dot
/// there comes from no call, and breaks the rule.
fn policy_domain(domain: &[u8]) -> Result<Domain, Refusal> {
    match domain.ends_with(b".") {
        true => Err(Refusal::new(11, 0)),
        false => written(domain),
    }
}

/// "18 no row with a count"; "rows past the 256th are no part of the list".
fn counted(rows: &[Row]) -> Vec<Row> {
    let own = rows.iter().take(MOST_ROWS);
    own.filter(|row| row.count > 0).copied().collect()
}

/// "the policy published ... as 01 reads it, defaults too, all three policies none if
/// not usable"
fn published(settings: &Settings) -> Usable {
    settings.usable().unwrap_or(Usable {
        p: Policy::None,
        sp: Some(Policy::None),
        np: Some(Policy::None),
    })
}

impl Reporter<'_> {
    /// "19 organization or email empty, or a text over 4,096 octets or with one
    /// outside 32 to 126"
    fn bad_text(&self) -> bool {
        let bad = |text: &[u8]| text.len() > MOST_TEXT_OCTETS || !text.iter().all(printing);
        let empty = self.organization.is_empty() || self.email.is_empty();
        empty
            || [self.organization, self.email, self.contact]
                .into_iter()
                .any(bad)
    }

    /// 11: "id empty, not alphanumeric or over 64 octets, begin after end"
    fn bad_id_or_times(&self) -> bool {
        bad_id(self.id) || self.begin > self.end
    }
}

impl Record {
    /// A row and what its numbers stand for: "11 also another domain written here, or
    /// a DKIM selector taken as one, that breaks 01's rule".
    fn of(row: Row, meant: &Meant) -> Result<Record, Refusal> {
        let of = |kind: Kind| meant.set.iter().filter(move |own| own.kind == kind);
        let spf = of(Kind::Spf).map(Spf::of).next();
        Ok(Record {
            row,
            author: written(meant.author)?,
            dkim: of(Kind::Dkim).map(Dkim::of).collect::<Result<_, _>>()?,
            spf: spf.transpose()?,
        })
    }
}

impl Dkim {
    fn of(member: &Member) -> Result<Dkim, Refusal> {
        Ok(Dkim {
            domain: written(member.domain)?,
            selector: written(member.selector)?,
            outcome: member.outcome,
        })
    }
}

impl Spf {
    /// SPF's selector is neither written nor judged.
    fn of(member: &Member) -> Result<Spf, Refusal> {
        Ok(Spf {
            domain: written(member.domain)?,
            outcome: member.outcome,
        })
    }
}
