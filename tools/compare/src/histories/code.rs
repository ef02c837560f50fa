//! The code that is held to the second evaluator, and its values in the second
//! evaluator's.

mod safe;

use super::history::{Call, History};
use evaluator::rows;
use waslidhaj::raw::{self, List, ListChanged};
use waslidhaj::{calls, Lists};

/// A list of rows by its three functions; the error is of what no call may give.
pub trait Code {
    fn new_list(&self) -> List;
    fn clear(&self, list: List, domain: &[u8], rows: &mut [raw::Row]) -> Changed;
    fn enter(&self, list: List, entered: Entered<'_>, rows: &mut [raw::Row]) -> Changed;
}

pub type Changed = Result<ListChanged, String>;

/// A verdict that is entered, the domain of its applied record, and the lists beside
/// the rows.
#[derive(Clone, Copy)]
pub struct Entered<'a> {
    pub entry: raw::Entry,
    pub domain: &'a [u8],
    pub lists: Lists<'a>,
}

/// The proved code: each call by the C interface, and again by the safe one where that
/// has the values.
pub struct Proved;

impl Code for Proved {
    fn new_list(&self) -> List {
        calls::new_list()
    }

    fn clear(&self, list: List, domain: &[u8], rows: &mut [raw::Row]) -> Changed {
        let mut own = rows.to_vec();
        let changed = calls::clear(list, domain, rows);
        let safe = safe::clear(list, domain, &mut own);
        safe::in_both(changed, safe, own == rows)
    }

    fn enter(&self, list: List, entered: Entered<'_>, rows: &mut [raw::Row]) -> Changed {
        let Entered {
            entry,
            domain,
            lists,
        } = entered;
        let mut own = rows.to_vec();
        let changed = calls::enter(list, entry, domain, lists, rows);
        match safe::enter(list, &entered, &mut own) {
            Some(safe) => safe::in_both(changed, safe, own == rows),
            None => Ok(changed),
        }
    }
}

/// Makes a call of a history.
pub fn make(
    code: &impl Code,
    (history, call): (&History, &Call),
    list: List,
    rows: &mut [raw::Row],
) -> Changed {
    match call {
        Call::Clear(domain) => code.clear(list, domain, rows),
        Call::Enter { entry, beside } => {
            let beside = history.beside.get(*beside);
            let entered = Entered {
                entry: given_entry(entry),
                domain: &entry.finding.domain,
                lists: beside.map_or(Lists::default(), |own| own.lent()),
            };
            code.enter(list, entered, rows)
        }
    }
}

fn given_entry(entry: &rows::Entry) -> raw::Entry {
    let finding = &entry.finding;
    raw::Entry {
        source: entry.source,
        finding: raw::FindingNumbers {
            result: finding.result,
            disposition: finding.disposition,
            dkim: finding.dkim,
            spf: finding.spf,
        },
        author: entry.author,
        set: entry.set,
    }
}

pub fn given_row(row: &rows::Row) -> raw::Row {
    let seen = &row.seen;
    raw::Row {
        seen: raw::Seen {
            source: seen.source,
            disposition: seen.disposition,
            dkim: seen.dkim,
            spf: seen.spf,
            spare: seen.spare,
            author: seen.author,
            set: seen.set,
        },
        count: row.count,
    }
}

pub fn read_row(row: &raw::Row) -> rows::Row {
    let seen = &row.seen;
    rows::Row {
        seen: rows::Seen {
            source: seen.source,
            disposition: seen.disposition,
            dkim: seen.dkim,
            spf: seen.spf,
            spare: seen.spare,
            author: seen.author,
            set: seen.set,
        },
        count: row.count,
    }
}
