//! The aggregate report, its file name, and the subject of its mail.

use crate::calls::{self, Lists, Reporter};
use crate::policy::Settings;
use crate::raw::{Gathered, Row};
use crate::refusal::Refusal;
use crate::rows::DayList;

/// The aggregate report of a day's rows as XML (RFC 9990, 3.1.1).
///
/// ```
/// use waslidhaj::policy::{Request, Settings};
/// use waslidhaj::{DayList, Disposition, DmarcResult, Finding, Kind, Outcome};
/// use waslidhaj::{Report, ReportLists, ReportedIdentifier, Reporter, Row};
///
/// # fn main() -> Result<(), waslidhaj::Refusal> {
/// let mut rows = [Row::default(); 256];
/// let mut list = DayList::new();
/// list.clear("example.com", &mut rows)?;
///
/// // For each message: what was found of it, its author domain and identifiers.
/// let finding = Finding {
///     result: DmarcResult::Pass,
///     disposition: Disposition::None,
///     dkim: true,
///     spf: false,
///     domain: "example.com".to_string(),
/// };
/// let signature = ReportedIdentifier {
///     kind: Kind::Dkim,
///     outcome: Outcome::Pass,
///     selector: b"s1",
///     domain: b"mail.example.com",
/// };
/// let mut beside = ReportLists::new();
/// let author = beside.author("example.com").expect("a short domain");
/// let set = beside.set(&[signature]).expect("a small set");
/// let source = waslidhaj::mapped([192, 0, 2, 1].into());
/// list.enter(source, &finding, author, set, beside.lists(), &mut rows)?;
///
/// // At the day's end.
/// let report = Report {
///     reporter: Reporter {
///         organization: b"Gate & Sons",
///         email: b"dmarc@gate.example",
///         contact: b"",
///         id: b"r7",
///         begin: 1_700_000_000,
///         end: 1_700_086_399,
///     },
///     settings: Settings {
///         p: Request::Reject,
///         ..Settings::default()
///     },
/// };
/// let text = report.text(&list, &rows, beside.lists())?;
/// assert!(text.starts_with(b"<?xml version=\"1.0\" encoding=\"UTF-8\"?><feedback "));
/// let text = String::from_utf8(text).expect("printable octets");
/// assert!(text.contains("<org_name>Gate &amp; Sons</org_name>"));
/// assert!(text.contains("<source_ip>192.0.2.1</source_ip><count>1</count>"));
/// assert!(text.contains("<selector>s1</selector><result>pass</result>"));
/// # Ok(())
/// # }
/// ```
#[derive(Clone, Copy, Debug, PartialEq, Eq)]
pub struct Report<'a> {
    /// Who reports, on which time.
    pub reporter: Reporter<'a>,
    /// The policy published at the list's domain.
    pub settings: Settings,
}

impl Report<'_> {
    /// Enough for any report.
    pub const OCTETS: usize = 2_592_802;

    /// Writes the report of these rows, and gives its length. Refused 27, 18, 28,
    /// 19, 11, 10.
    pub fn write(
        &self,
        list: &DayList,
        rows: &[Row],
        lists: Lists<'_>,
        out: &mut [u8],
    ) -> Result<usize, Refusal> {
        self.write_gathered(list, calls::gather(rows), lists, out)
    }

    /// The report of these rows. Refused 27, 18, 28, 19, 11.
    pub fn text(&self, list: &DayList, rows: &[Row], lists: Lists<'_>) -> Result<Vec<u8>, Refusal> {
        let gathered = calls::gather(rows);
        let mut text = Vec::new();
        // No report is empty, so the octets that it needs are refused first.
        match self.write_gathered(list, gathered, lists, &mut text) {
            Err(refusal) if refusal.number == 10 => text.resize(refusal.place, 0),
            refused => return refused.map(|_| text),
        }
        self.write_gathered(list, gathered, lists, &mut text)?;
        Ok(text)
    }

    fn write_gathered(
        &self,
        list: &DayList,
        gathered: Gathered,
        lists: Lists<'_>,
        out: &mut [u8],
    ) -> Result<usize, Refusal> {
        let settings = self.settings.numbers();
        let written = calls::report(*list.raw(), gathered, settings, lists, self.reporter, out);
        Refusal::check(written.refusal).map(|()| written.length)
    }
}

/// What the file of an aggregate report is named after (RFC 9990, 3.5.2).
///
/// ```
/// use waslidhaj::FileName;
///
/// let name = FileName {
///     receiver: b"gate.example",
///     domain: b"Example.com",
///     begin: 1_700_000_000,
///     end: 1_700_086_399,
///     id: Some(b"r7"),
/// };
/// let mut out = [0; FileName::OCTETS];
/// let length = name.write(&mut out)?;
/// let expected = b"gate.example!example.com!1700000000!1700086399!r7.xml";
/// assert_eq!(&out[..length], expected);
/// # Ok::<(), waslidhaj::Refusal>(())
/// ```
#[derive(Clone, Copy, Debug, PartialEq, Eq)]
pub struct FileName<'a> {
    /// The domain of the receiver that reports.
    pub receiver: &'a [u8],
    /// The policy domain.
    pub domain: &'a [u8],
    /// The first second.
    pub begin: u64,
    /// The last second.
    pub end: u64,
    /// An id of 1 to 64 letters and digits, if there is one.
    pub id: Option<&'a [u8]>,
}

impl FileName<'_> {
    /// Enough for any file name.
    pub const OCTETS: usize = 618;

    /// Writes the file name, and gives its length. Refused 11, 10.
    pub fn write(&self, out: &mut [u8]) -> Result<usize, Refusal> {
        let has_id = u8::from(self.id.is_some());
        let id = self.id.unwrap_or_default();
        let written = calls::file_name(
            self.receiver,
            self.domain,
            self.begin,
            self.end,
            has_id,
            id,
            out,
        );
        Refusal::check(written.refusal).map(|()| written.length)
    }
}

/// What the subject of a mail with a report is made from (RFC 9990, 3.5.2).
///
/// ```
/// use waslidhaj::Subject;
///
/// let subject = Subject {
///     receiver: b"gate.example",
///     domain: b"Example.com",
///     id: b"r7",
/// };
/// let mut out = [0; Subject::OCTETS];
/// let length = subject.write(&mut out)?;
/// let expected = b"Report Domain: example.com Submitter: gate.example Report-ID: <r7>";
/// assert_eq!(&out[..length], expected);
/// # Ok::<(), waslidhaj::Refusal>(())
/// ```
#[derive(Clone, Copy, Debug, PartialEq, Eq)]
pub struct Subject<'a> {
    /// The domain of the receiver that reports.
    pub receiver: &'a [u8],
    /// The policy domain.
    pub domain: &'a [u8],
    /// The report's id: 1 to 64 letters and digits.
    pub id: &'a [u8],
}

impl Subject<'_> {
    /// Enough for any subject.
    pub const OCTETS: usize = 611;

    /// Writes the subject, without the field's name, and gives its length. Refused
    /// 11, 10.
    pub fn write(&self, out: &mut [u8]) -> Result<usize, Refusal> {
        let written = calls::subject(self.receiver, self.domain, self.id, out);
        Refusal::check(written.refusal).map(|()| written.length)
    }
}
