//! The two lists beside a day's rows.

use crate::answer::record;
use crate::calls::Lists;
use crate::numbers::{Kind, Outcome};

/// The author domains and the sets of identifiers that a day's rows stand for.
/// A row has their places, and rows with different places are different rows.
///
/// ```
/// use waslidhaj::{Kind, Outcome, ReportLists, ReportedIdentifier};
///
/// let mut beside = ReportLists::new();
/// assert_eq!(beside.author("example.com"), Some(0));
/// assert_eq!(beside.author("news.example.com"), Some(1));
/// assert_eq!(beside.author("example.com"), Some(0));
/// let signature = ReportedIdentifier {
///     kind: Kind::Dkim,
///     outcome: Outcome::Pass,
///     selector: b"s1",
///     domain: b"example.com",
/// };
/// assert_eq!(beside.set(&[signature]), Some(0));
/// assert_eq!(beside.set(&[]), Some(1));
/// let lists = beside.lists();
/// assert_eq!(&lists.authors[..15], b"AU\0\x0bexample.com");
/// assert_eq!(lists.sets, b"ST\0\x14ID\0\x10\x01\x01\x02s1example.comST\0\0");
/// ```
#[derive(Clone, Debug, Default, PartialEq, Eq)]
pub struct ReportLists {
    authors: Vec<u8>,
    sets: Vec<u8>,
}

/// An identifier of a message as a report has it.
#[derive(Clone, Copy, Debug, PartialEq, Eq)]
pub struct ReportedIdentifier<'a> {
    /// SPF or DKIM.
    pub kind: Kind,
    /// Its outcome.
    pub outcome: Outcome,
    /// The selector of a DKIM signature; SPF's is not read.
    pub selector: &'a [u8],
    /// Its domain.
    pub domain: &'a [u8],
}

impl ReportLists {
    /// Both are empty.
    pub fn new() -> ReportLists {
        ReportLists::default()
    }

    /// The place of an author domain: of the one that is there, octet for octet,
    /// or else of this one, which is added. Nothing where it has no room in a
    /// record (65,535 octets).
    pub fn author(&mut self, domain: impl AsRef<[u8]>) -> Option<u32> {
        place(&mut self.authors, b"AU", domain.as_ref())
    }

    /// The place of a set of identifiers, likewise. A selector has 255 octets at
    /// the most.
    pub fn set(&mut self, identifiers: &[ReportedIdentifier<'_>]) -> Option<u32> {
        let mut body = Vec::new();
        for identifier in identifiers {
            body.extend(record(b"ID", &identifier.octets()?)?);
        }
        place(&mut self.sets, b"ST", &body)
    }

    /// Both, to lend beside the rows.
    pub fn lists(&self) -> Lists<'_> {
        Lists {
            authors: &self.authors,
            sets: &self.sets,
        }
    }
}

impl ReportedIdentifier<'_> {
    /// Its kind, its outcome, the length of its selector, the selector, the domain.
    fn octets(&self) -> Option<Vec<u8>> {
        let selector = u8::try_from(self.selector.len()).ok()?;
        let numbers = [self.kind as u8, self.outcome as u8, selector];
        Some([&numbers, self.selector, self.domain].concat())
    }
}

/// The place of a body in a list, to which it is added where it is not there.
fn place(list: &mut Vec<u8>, mark: &[u8; 2], body: &[u8]) -> Option<u32> {
    let added = record(mark, body)?;
    let known = bodies(list).position(|own| own == body);
    let place = u32::try_from(known.unwrap_or_else(|| bodies(list).count())).ok()?;
    if known.is_none() {
        list.extend(added);
    }
    Some(place)
}

/// The bodies of the records of a list, in turn.
fn bodies(mut list: &[u8]) -> impl Iterator<Item = &[u8]> {
    std::iter::from_fn(move || {
        let (head, rest) = list.split_first_chunk::<4>()?;
        let length = u16::from_be_bytes([head[2], head[3]]);
        let (body, rest) = rest.split_at_checked(usize::from(length))?;
        list = rest;
        Some(body)
    })
}
