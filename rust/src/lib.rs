//! Waslidhaj: a proved DMARC evaluator (RFC 9989) for programs that send their
//! own DNS lookups.
//!
//! An [`Evaluation`] is a plain value: there is no allocation in it, no global,
//! no lock and no callback. Open one with the author domain, add an identifier
//! for each SPF or DKIM outcome, then take the [`next`](Evaluation::next) step
//! and hand in an [`answer`](Evaluation::answer) for the name that it asks for,
//! in turn, until it gives the verdict.
//!
//! ```
//! use waslidhaj::{records, Alignment, Answer, Disposition, DmarcResult};
//! use waslidhaj::{Evaluation, Existence, Kind, Outcome, Step, SCRATCH_OCTETS};
//!
//! /// Stands for a lookup of TXT records: the RDATA of each, or no answer.
//! fn lookup(name: &str) -> Result<Vec<&'static [u8]>, ()> {
//!     Ok(match name {
//!         "_dmarc.example.com" => vec![b"\x12v=DMARC1; p=reject"],
//!         _ => vec![],
//!     })
//! }
//!
//! fn main() -> Result<(), waslidhaj::Refusal> {
//!     let mut evaluation = Evaluation::open("example.com", Existence::Exists, true)?;
//!     evaluation.add(Kind::Dkim, Outcome::Pass, "mail.example.com")?;
//!     evaluation.add(Kind::Spf, Outcome::NotPassing, "bounce.example.net")?;
//!     let mut scratch = [0; SCRATCH_OCTETS];
//!     let verdict = loop {
//!         let name = match evaluation.next()? {
//!             Step::Ask(name) => name,
//!             Step::Verdict(verdict) => break verdict,
//!         };
//!         let found = lookup(name.as_str());
//!         let bytes = found.map(|rdatas| records(&rdatas));
//!         let answer = match &bytes {
//!             Ok(Some(bytes)) if bytes.is_empty() => Answer::NoRecords,
//!             Ok(Some(bytes)) => Answer::Records(bytes),
//!             // A lookup that failed or timed out is an error, and so is an
//!             // answer that cannot be written.
//!             _ => Answer::Error,
//!         };
//!         match evaluation.answer(name, answer, &mut scratch) {
//!             // Over a limit, or unreadable: its name still stands.
//!             Err(refusal) if refusal.number == 6 => {
//!                 evaluation.answer(name, Answer::Error, &mut scratch)?;
//!             }
//!             answered => answered?,
//!         }
//!     };
//!     assert_eq!(verdict.result, DmarcResult::Pass);
//!     assert_eq!(verdict.disposition, Disposition::None);
//!     assert_eq!(verdict.domain, "example.com");
//!     assert_eq!(verdict.alignments, [Alignment::Aligned, Alignment::NotAligned]);
//!     assert_eq!(verdict.asked, 3);
//!     let mut field = [0; 64];
//!     let length = evaluation.field(&mut field)?;
//!     assert_eq!(&field[..length], b"Identity-Alignment: spf\r\n");
//!     Ok(())
//! }
//! ```
//!
//! Domains and names are taken as any octets, so that what a message has can be
//! handed in as it is. What cannot be taken is a [`Refusal`]; a refused call
//! leaves the evaluation and lent memory as they were.
//!
//! Beside evaluations there are [`DayList`] (a day's verdicts, gathered in rows, with
//! [`ReportLists`] beside them), [`Report`] (the aggregate report as XML) with its
//! [`FileName`] and [`Subject`], [`ReceivedRows`] (the rows of a report that is read,
//! over a [`Reader`] of parts cut anywhere), [`AddressCheck`] (whether a report address
//! agreed), [`policy`] (policy records written and read), [`read_field`] (an
//! Identity-Alignment field) and [`run`] (a whole message from a sheet). [`calls`] and
//! [`raw`] have the C interface itself.

#![deny(unsafe_code)]
#![warn(missing_docs)]

mod address;
mod answer;
#[allow(unsafe_code)]
pub mod calls;
mod evaluation;
mod field;
mod lists;
mod name;
mod numbers;
pub mod policy;
pub mod raw;
mod reader;
mod received;
mod refusal;
mod report;
mod rows;
mod sheet;
mod verdict;

pub use address::{AddressCheck, AddressOutcome, AddressStep, Agreement};
pub use answer::{records, Answer};
pub use calls::{Lists, Reporter};
pub use evaluation::{Evaluation, Step};
pub use field::{read_field, Methods};
pub use lists::{ReportLists, ReportedIdentifier};
pub use name::Name;
pub use numbers::{Alignment, AppliedPolicy, Disposition, DmarcResult};
pub use numbers::{Existence, Kind, Outcome};
pub use raw::{Row, Seen, ROW_OCTETS};
pub use reader::{Fed, Reader, ReceivedIdentifier, ReceivedRow};
pub use received::{ReadError, ReceivedRows};
pub use refusal::Refusal;
pub use report::{FileName, Report, Subject};
pub use rows::{mapped, DayList, Finding};
pub use sheet::{run, PRINTED_OCTETS};
pub use verdict::Verdict;

/// Of all that may be kept: another whenever a layout or a meaning changes. A state
/// that is kept in a file is of one build only: keep this beside it, and open the
/// message afresh where it is another. So are a day's list and its rows.
pub const VERSION: usize = 10;
/// The most octets of a domain.
pub const DOMAIN_OCTETS: usize = 253;
/// Enough for the name that any state gives.
pub const NAME_OCTETS: usize = 260;
/// Enough for the name that any check of an address gives.
pub const CHECK_NAME_OCTETS: usize = 522;
/// The scratch that an answer needs.
pub const SCRATCH_OCTETS: usize = 4096;
/// The most identifiers of a message.
pub const IDENTIFIERS: usize = 16;
/// The most names that a message asks.
pub const NAMES: usize = 136;
/// The most names that a check of an address asks.
pub const CHECK_NAMES: usize = 17;
/// The most rows of a day's list.
pub const ROWS: usize = 256;
/// The stack that is enough for every call of the C interface but `run`. Copies of
/// an evaluation that Rust makes on the way come on top.
pub const STACK_OCTETS: usize = 102_400;
/// The stack that is enough for [`run`], likewise.
pub const RUN_STACK_OCTETS: usize = 163_840;
