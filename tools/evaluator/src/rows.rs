//! Ask 1 of document 02, with the rows of Ask 9: a day's verdicts gathered in rows,
//! one list for one policy domain.

use crate::domain::{without_dot, Domain, MOST_OCTETS};
use crate::lists::Lists;
use crate::message::{Kind, Message};
use crate::refusal::Refusal;
use crate::report::judged;
use crate::verdict::{Alignment, Disposition, DmarcResult, Verdict};

/// "Up to 256 rows"; "rows past the 256th are no part of the list".
pub const MOST_ROWS: usize = 256;

/// The numbers of results that can be entered, and of dispositions in a row;
/// "14 not a pass or fail".
const RESULTS: [u8; 2] = [DmarcResult::Pass.number(), DmarcResult::Fail.number()];
const DISPOSITIONS: [u8; 3] = [
    Disposition::None.number(),
    Disposition::Quarantine.number(),
    Disposition::Reject.number(),
];

/// What a row counts: verdicts that have all this in common. A flag is "set where it
/// is not 0".
#[derive(Clone, Copy, Debug, Default, PartialEq, Eq)]
pub struct Seen {
    /// "source address (16 octets, IPv4 mapped)"
    pub source: [u8; 16],
    /// 0 none, 1 quarantine, 2 reject. A lent row may have another number, and
    /// then matches no entry.
    pub disposition: u8,
    pub dkim: u8,
    pub spf: u8,
    /// "neither matched nor read"
    pub spare: u8,
    /// "The row gains two numbers: its author domain, and its set": "places in lists
    /// handed in beside the rows".
    pub author: u32,
    pub set: u32,
}

/// A row of lent memory; "a row with count 0 is free".
#[derive(Clone, Copy, Debug, Default, PartialEq, Eq)]
pub struct Row {
    pub seen: Seen,
    pub count: u32,
}

/// A verdict as far as a list wants it, by numbers: result 0 none, 1 pass,
/// 2 fail, 3 temperror, 4 permerror; disposition 0 none, 1 quarantine, 2 reject,
/// 3 defer.
#[derive(Clone, Debug, Default, PartialEq, Eq)]
pub struct Finding {
    pub result: u8,
    pub disposition: u8,
    /// "whether DKIM aligned, whether SPF aligned"
    pub dkim: u8,
    pub spf: u8,
    /// The applied record's domain.
    pub domain: Vec<u8>,
}

/// A verdict to be entered, where its message came from, and its two numbers.
#[derive(Clone, Debug, Default, PartialEq, Eq)]
pub struct Entry {
    pub source: [u8; 16],
    pub finding: Finding,
    pub author: u32,
    pub set: u32,
}

/// "One list serves one policy domain, named when it is cleared." The first list
/// was never cleared.
#[derive(Clone, Debug, Default, PartialEq, Eq)]
pub struct DayList {
    domain: Option<Vec<u8>>,
}

impl Finding {
    /// What is entered of a message at its verdict. A kind is aligned if some
    /// identifier of it is; an unknown alignment, or one not judged, is none.
    pub fn of(message: &Message, verdict: &Verdict) -> Finding {
        let judged = judged(message, verdict);
        let aligned = |kind: Kind| u8::from(judged.contains(&(kind, Alignment::Aligned)));
        Finding {
            result: verdict.result.number(),
            disposition: verdict.disposition.number(),
            dkim: aligned(Kind::Dkim),
            spf: aligned(Kind::Spf),
            domain: verdict.domain.clone(),
        }
    }
}

/// "Entering writes a taken row's flags as 1 or 0".
fn flag(octet: u8) -> u8 {
    u8::from(octet != 0)
}

impl Seen {
    /// The same as it is read, "and its `spare` as 0".
    fn read(self) -> Seen {
        Seen {
            dkim: flag(self.dkim),
            spf: flag(self.spf),
            spare: 0,
            ..self
        }
    }
}

impl Entry {
    /// What its row counts, or nothing if it is not a pass or fail.
    fn seen(&self) -> Option<Seen> {
        let finding = &self.finding;
        let fits = RESULTS.contains(&finding.result) && DISPOSITIONS.contains(&finding.disposition);
        let seen = Seen {
            source: self.source,
            disposition: finding.disposition,
            dkim: finding.dkim,
            spf: finding.spf,
            spare: 0,
            author: self.author,
            set: self.set,
        };
        fits.then_some(seen.read())
    }
}

impl DayList {
    /// A list as it is handed in: "A list's policy domain is the first `length`
    /// octets of `domain` (all 253 where length is over 253), once `cleared` is set."
    pub fn handed(cleared: u8, domain: &[u8; MOST_OCTETS], length: u16) -> DayList {
        let own = domain.get(..usize::from(length)).unwrap_or(domain);
        DayList {
            domain: (cleared != 0).then(|| own.to_vec()),
        }
    }

    /// The policy domain, or nothing if the list was never cleared. A call gives it
    /// in lower case, and as one that keeps the rule.
    pub fn domain(&self) -> Option<&[u8]> {
        self.domain.as_deref()
    }

    /// "A day's end clears the list, its counts to 0 and no more; a bad policy
    /// domain there is refused 11."
    pub fn clear(&mut self, domain: &[u8], rows: &mut [Row]) -> Result<(), Refusal> {
        let domain = Domain::read(domain).map_err(|_| Refusal::new(11, 0))?;
        for row in rows.iter_mut().take(MOST_ROWS) {
            row.count = 0;
        }
        self.domain = Some(domain.octets().to_vec());
        Ok(())
    }

    /// Enters a verdict. "Refusals: 12 no free row and no match; 13 the count
    /// would pass 4,294,967,295; 14 not a pass or fail; 27 another policy domain,
    /// or a list never cleared; order 14, 27, 12, 13", "with 28 after 27".
    pub fn enter(&self, entry: &Entry, lists: Lists<'_>, rows: &mut [Row]) -> Result<(), Refusal> {
        let seen = entry.seen().ok_or(Refusal::new(14, 0))?;
        if !self.serves(&entry.finding.domain) {
            return Err(Refusal::new(27, 0));
        }
        if lists.read().meant(&seen).is_none() {
            return Err(Refusal::new(28, 0));
        }
        let row = chosen(&seen, rows).ok_or(Refusal::new(12, 0))?;
        let count = row.count.checked_add(1).ok_or(Refusal::new(13, 0))?;
        if row.count == 0 {
            row.seen = seen;
        }
        row.count = count;
        Ok(())
    }

    /// "ASCII case never matters", nor does a final dot.
    fn serves(&self, domain: &[u8]) -> bool {
        let own = self.domain();
        own.is_some_and(|own| own.eq_ignore_ascii_case(without_dot(domain)))
    }
}

/// "its first matching row that isn't free or ... the first free one"; "rows match
/// only where these are equal too", flags as they are read.
fn chosen<'r>(seen: &Seen, rows: &'r mut [Row]) -> Option<&'r mut Row> {
    let own = || rows.iter().take(MOST_ROWS);
    let matching = own().position(|row| row.count > 0 && row.seen.read() == *seen);
    let at = matching.or_else(|| own().position(|row| row.count == 0))?;
    rows.get_mut(at)
}
