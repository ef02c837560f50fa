//! A readable description of a day: the policy domain with its record, the
//! reporter, and the day's verdicts in rows (Asks 1 and 9 of document 02).
//!
//! It has the words, comments and escapes of a message's description. Items come in
//! any order, but an identifier stands below its row.
//!
//! ```text
//! domain example.com
//! record "v=DMARC1; p=reject; sp=quarantine"
//! organization "Gate & Sons"
//! email dmarc@gate.example
//! contact "https://gate.example/dmarc"      # it may be left out
//! receiver gate.example
//! id r7
//! begin 2023-11-14T00:00:00Z
//! end 1700006399
//! row 192.0.2.1 3 none aligned dkim author news.example.com
//!   dkim pass mail.example.com s1
//!   spf fail bounce.example.net
//! row 2001:db8::25 12 reject author example.com
//! ```
//!
//! A row is source, count, disposition, the methods that aligned if any did, and the
//! author domain. It is a row of the list that is lent to the proved code, as its
//! verdicts entered one by one would have left it. They would never have left two
//! rows alike, so a row that is given again is a mistake.

mod complete;
mod csv;
mod generated;
mod items;
pub(crate) mod json;
mod read;
mod refused;
mod rows;
pub(crate) mod shown;
pub(crate) mod table;
mod times;

pub use complete::Complete;
pub use csv::csv;
pub use generated::generated;
pub use json::json;
pub use refused::notes;
pub use table::table;

use std::net::IpAddr;

use crate::handed::{check_encoding, in_file};

/// The longest description of a day that is read. A day of 256 rows, 16 identifiers
/// each and the longest names, all of them in hex, has some five million octets.
pub const MOST_DAY_OCTETS: usize = 8 << 20;

/// The words of a row's dispositions, each at its number.
pub const DISPOSITIONS: [&str; 3] = ["none", "quarantine", "reject"];

/// The numbers of the kinds.
pub const SPF: u8 = 0;
pub const DKIM: u8 = 1;

/// What a line gives.
#[derive(Clone, Debug, PartialEq, Eq)]
pub struct Given<T> {
    pub line: usize,
    pub value: T,
}

/// A text as a line gives it.
pub type Text = Given<Vec<u8>>;

/// A day as it is described; what no line gives is left out.
#[derive(Clone, Debug, Default, PartialEq, Eq)]
pub struct Day {
    /// The name of its file.
    pub name: String,
    pub domain: Option<Text>,
    /// The text of the policy record at the domain.
    pub record: Option<Text>,
    pub organization: Option<Text>,
    pub email: Option<Text>,
    pub contact: Option<Text>,
    pub receiver: Option<Text>,
    pub id: Option<Text>,
    pub begin: Option<Given<u64>>,
    pub end: Option<Given<u64>>,
    pub rows: Vec<DayRow>,
}

#[derive(Clone, Debug, PartialEq, Eq, Hash)]
pub struct DayRow {
    /// 0 where it comes from no line.
    pub line: usize,
    /// A mapped address is one of IPv4.
    pub source: IpAddr,
    pub count: u32,
    /// 0 none, 1 quarantine, 2 reject.
    pub disposition: u8,
    /// Whether DKIM aligned.
    pub dkim: bool,
    /// Whether SPF aligned.
    pub spf: bool,
    pub author: Vec<u8>,
    pub identifiers: Vec<RowIdentifier>,
}

#[derive(Clone, Debug, PartialEq, Eq, Hash)]
pub struct RowIdentifier {
    /// Likewise.
    pub line: usize,
    /// 0 SPF, 1 DKIM.
    pub kind: u8,
    /// 0 not passing, 1 pass, 2 temporary error.
    pub outcome: u8,
    pub domain: Vec<u8>,
    /// Empty for SPF.
    pub selector: Vec<u8>,
}

impl Day {
    /// Reads a description; the error has the file's name, and the line of a mistake.
    pub fn read(name: &str, octets: &[u8]) -> Result<Day, String> {
        let read = check(octets).and_then(|()| read::read(octets).map_err(|own| own.to_string()));
        let mut day = read.map_err(|reason| in_file(name, &reason))?;
        day.name = name.to_string();
        Ok(day)
    }

    /// The rows as a report writes them, but the most messages first.
    fn sorted_rows(&self) -> Vec<DayRow> {
        let mut rows: Vec<DayRow> = self.rows.iter().map(DayRow::as_written).collect();
        rows.sort_by_key(|row| std::cmp::Reverse(row.count));
        rows
    }
}

/// How many messages each disposition has, at its number.
pub(crate) fn totals<'a>(rows: impl IntoIterator<Item = &'a DayRow>) -> [u64; 3] {
    let mut totals = [0; 3];
    for row in rows {
        if let Some(total) = totals.get_mut(usize::from(row.disposition)) {
            *total += u64::from(row.count);
        }
    }
    totals
}

fn check(octets: &[u8]) -> Result<(), String> {
    if octets.is_empty() {
        return Err(format!("it is empty; {}", complete::ROW_LINE));
    }
    if octets.len() > MOST_DAY_OCTETS {
        return Err("it is over 8,388,608 octets, which no day needs".to_string());
    }
    check_encoding(octets)
}
