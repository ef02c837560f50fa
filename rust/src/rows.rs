//! A day's verdicts, gathered in rows.

use std::net::IpAddr;

use crate::calls::{self, Lists};
use crate::numbers::{Disposition, DmarcResult};
use crate::raw::{Entry, FindingNumbers, List, ListChanged, Row};
use crate::refusal::Refusal;

/// A day's list for one policy domain. Its rows are lent at each call: up to 256,
/// and those past the 256th are no part of it.
///
/// ```
/// use waslidhaj::{Answer, DayList, Evaluation, Existence, ReportLists, Row};
/// use waslidhaj::SCRATCH_OCTETS;
///
/// # fn main() -> Result<(), waslidhaj::Refusal> {
/// let mut rows = [Row::default(); 256];
/// let mut list = DayList::new();
/// list.clear("example.com", &mut rows)?;
/// let mut evaluation = Evaluation::open("example.com", Existence::Exists, true)?;
/// evaluation.next()?;
/// let record = Answer::Records(b"TX\0\x13\x12v=DMARC1; p=reject");
/// let mut scratch = [0; SCRATCH_OCTETS];
/// evaluation.answer("_dmarc.example.com", record, &mut scratch)?;
/// let source = waslidhaj::mapped([192, 0, 2, 1].into());
/// let mut beside = ReportLists::new();
/// let author = beside.author("example.com").expect("a short domain");
/// let set = beside.set(&[]).expect("a small set");
/// let finding = evaluation.finding()?;
/// list.enter(source, &finding, author, set, beside.lists(), &mut rows)?;
/// assert_eq!((rows[0].count, rows[0].seen.disposition), (1, 2));
/// # Ok(())
/// # }
/// ```
#[derive(Clone, Copy, Debug, PartialEq, Eq)]
pub struct DayList {
    list: List,
}

/// What is entered of a verdict.
#[derive(Clone, Debug, PartialEq, Eq)]
pub struct Finding {
    /// The result; a list takes pass and fail.
    pub result: DmarcResult,
    /// The disposition.
    pub disposition: Disposition,
    /// Whether DKIM aligned.
    pub dkim: bool,
    /// Whether SPF aligned.
    pub spf: bool,
    /// The domain of the applied record.
    pub domain: String,
}

impl DayList {
    /// A list that was never cleared.
    pub fn new() -> DayList {
        DayList {
            list: calls::new_list(),
        }
    }

    /// A day's end: the counts go to 0, and the list is named for a policy domain.
    /// Refused 11.
    pub fn clear(&mut self, domain: impl AsRef<[u8]>, rows: &mut [Row]) -> Result<(), Refusal> {
        let changed = calls::clear(self.list, domain.as_ref(), rows);
        self.accept(changed)
    }

    /// Enters what was found of a message that came from this source, with the
    /// places of its author domain and of its set of identifiers in the lists.
    /// Refused 14, 27, 28, 12, 13.
    pub fn enter(
        &mut self,
        source: [u8; 16],
        finding: &Finding,
        author: u32,
        set: u32,
        lists: Lists<'_>,
        rows: &mut [Row],
    ) -> Result<(), Refusal> {
        let entry = Entry {
            source,
            finding: finding.numbers(),
            author,
            set,
        };
        let changed = calls::enter(self.list, entry, finding.domain.as_bytes(), lists, rows);
        self.accept(changed)
    }

    /// Its policy domain in lower case, once it was cleared.
    pub fn domain(&self) -> Option<&[u8]> {
        let list = &self.list;
        let length = usize::from(list.length).min(list.domain.len());
        (list.cleared != 0).then(|| &list.domain[..length])
    }

    /// The list, as a program in C has it.
    pub fn raw(&self) -> &List {
        &self.list
    }

    /// A day's list of one, whatever octets that has.
    pub fn from_raw(list: List) -> DayList {
        DayList { list }
    }

    fn accept(&mut self, changed: ListChanged) -> Result<(), Refusal> {
        self.list = changed.list;
        Refusal::check(changed.refusal)
    }
}

impl Default for DayList {
    fn default() -> DayList {
        DayList::new()
    }
}

impl Finding {
    pub(crate) fn of(numbers: FindingNumbers, domain: String) -> Finding {
        Finding {
            result: DmarcResult::of(numbers.result),
            disposition: Disposition::of(numbers.disposition),
            dkim: numbers.dkim != 0,
            spf: numbers.spf != 0,
            domain,
        }
    }

    fn numbers(&self) -> FindingNumbers {
        FindingNumbers {
            result: self.result as u8,
            disposition: self.disposition as u8,
            dkim: u8::from(self.dkim),
            spf: u8::from(self.spf),
        }
    }
}

/// The source address of a row: 16 octets, IPv4 mapped.
///
/// ```
/// let source = waslidhaj::mapped([192, 0, 2, 1].into());
/// assert_eq!(source, *b"\0\0\0\0\0\0\0\0\0\0\xff\xff\xc0\0\x02\x01");
/// ```
pub fn mapped(address: IpAddr) -> [u8; 16] {
    match address {
        IpAddr::V4(address) => address.to_ipv6_mapped().octets(),
        IpAddr::V6(address) => address.octets(),
    }
}
