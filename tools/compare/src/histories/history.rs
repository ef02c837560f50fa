//! A history of calls on one list, and how it is shown.

use std::fmt;

use crate::beside::Beside;
use evaluator::rows::{DayList, Entry, Row, Seen};
use sheets::written::hex;
use waslidhaj::raw::List;

/// A call on the list and the lent rows.
#[derive(Clone, Debug, PartialEq, Eq)]
pub enum Call {
    Clear(Vec<u8>),
    Enter {
        entry: Entry,
        /// Which of the history's lists are handed in beside the rows.
        beside: usize,
    },
}

/// What comes next in a history.
#[derive(Clone, Debug, PartialEq, Eq)]
pub enum Act {
    Call(Call),
    /// Somebody else writes a lent row.
    Write {
        at: usize,
        row: Row,
    },
    /// Somebody else writes the list.
    Forge(Box<List>),
}

/// A list never cleared and lent rows that hold anything, then all that happens.
#[derive(Clone, Debug, Default, PartialEq, Eq)]
pub struct History {
    pub rows: Vec<Row>,
    pub beside: Vec<Beside>,
    pub acts: Vec<Act>,
}

/// A list of any octets: its domain, and what is past that.
pub fn forged(cleared: u8, domain: &[u8], length: u16) -> List {
    let mut list = List {
        cleared,
        domain: [b'!'; 253],
        length,
    };
    for (own, octet) in list.domain.iter_mut().zip(domain) {
        *own = *octet;
    }
    list
}

/// A list as the second evaluator has it.
pub fn read_list(list: &List) -> DayList {
    DayList::handed(list.cleared, &list.domain, list.length)
}

impl History {
    /// The sums hold "while the same rows are lent and nobody else writes them".
    pub fn others_write(&self) -> bool {
        let writes = |act: &Act| matches!(act, Act::Write { .. });
        self.acts.iter().any(writes)
    }

    pub fn clear(&mut self, domain: &[u8]) {
        self.acts.push(Act::Call(Call::Clear(domain.to_vec())));
    }

    /// Enters with the first lists beside the rows.
    pub fn enter(&mut self, entry: Entry) {
        self.enter_beside(entry, 0);
    }

    pub fn enter_beside(&mut self, entry: Entry, beside: usize) {
        self.acts.push(Act::Call(Call::Enter { entry, beside }));
    }

    pub fn write(&mut self, at: usize, row: Row) {
        self.acts.push(Act::Write { at, row });
    }

    pub fn forge(&mut self, list: List) {
        self.acts.push(Act::Forge(Box::new(list)));
    }

    /// The history as lines, up to and including so many acts.
    pub fn lines(&self, acts: usize) -> String {
        let mut lines = format!("{} rows lent\n", self.rows.len());
        let mut at = 0;
        for equal in self.rows.chunk_by(PartialEq::eq) {
            let last = at + equal.len() - 1;
            let row = equal.first().copied().unwrap_or_default();
            lines += &match at == last {
                true => format!("  row {at}: {}\n", shown(&row)),
                false => format!("  rows {at} to {last}: {}\n", shown(&row)),
            };
            at += equal.len();
        }
        for (number, beside) in self.beside.iter().enumerate() {
            lines += &format!("lists {number}: {beside}\n");
        }
        for act in self.acts.iter().take(acts) {
            lines += &format!("{act}\n");
        }
        lines
    }
}

impl fmt::Display for Act {
    fn fmt(&self, out: &mut fmt::Formatter<'_>) -> fmt::Result {
        match self {
            Act::Call(Call::Clear(domain)) => write!(out, "clear \"{}\"", domain.escape_ascii()),
            Act::Call(Call::Enter { entry, beside }) => {
                let found = &entry.finding;
                let (domain, result) = (found.domain.escape_ascii(), found.result);
                let seen = words(&seen(entry));
                write!(
                    out,
                    "enter result={result} {seen} \"{domain}\" lists={beside}"
                )
            }
            Act::Write { at, row } => write!(out, "row {at} is written: {}", shown(row)),
            Act::Forge(list) => {
                let (cleared, length) = (list.cleared, list.length);
                let domain = list.domain.escape_ascii();
                write!(
                    out,
                    "the list is written: cleared={cleared} length={length} \"{domain}\""
                )
            }
        }
    }
}

/// What an entry has in common with a row.
fn seen(entry: &Entry) -> Seen {
    Seen {
        source: entry.source,
        disposition: entry.finding.disposition,
        dkim: entry.finding.dkim,
        spf: entry.finding.spf,
        spare: 0,
        author: entry.author,
        set: entry.set,
    }
}

fn words(seen: &Seen) -> String {
    format!(
        "disposition={} dkim={} spf={} author={} set={} source={}",
        seen.disposition,
        seen.dkim,
        seen.spf,
        seen.author,
        seen.set,
        hex(&seen.source)
    )
}

/// A row in words.
pub fn shown(row: &Row) -> String {
    let (count, spare) = (row.count, row.seen.spare);
    format!("count={count} {} spare={spare}", words(&row.seen))
}
