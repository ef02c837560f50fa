//! A readable description of a sheet, and back.
//!
//! One item a line, its words in either case. `#` begins a comment, at the start
//! of a line or after a blank; blank lines are ignored.
//!
//! ```text
//! author news.example.com exists supported
//! spf pass bounce.example.com            # a comment
//! dkim temperror other.example
//! id kind=5 outcome=1 other.example
//! answer _dmarc.example.com "v=DMARC1; p=reject" "; sp=none"
//! answer _dmarc.example.com "a second record at this name"
//! _dmarc.example.net. 300 IN TXT "v=DMARC1; p=none"
//! answer _dmarc.com none
//! answer _dmarc.org hex 5458
//! sheet hex 4155
//! ```

mod answers;
mod collected;
mod describe;
mod described;
mod escapes;
mod lines;
mod make;
mod tokens;
mod words;

pub use answers::AnswerLine;
pub use collected::read_answers;
pub(crate) use describe::domain_word;
pub use describe::{describe, quoted};
pub use described::{Described, Mistake};
pub(crate) use lines::each_line;
pub use make::{make, read};
pub(crate) use tokens::{domain_octets, Token};
pub(crate) use words::{number_of, outcome_of};
pub use words::{word, KINDS, OUTCOMES};
