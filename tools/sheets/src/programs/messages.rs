//! Sheets that a program runs one after the other.
//!
//! CASES has for each sheet one octet kind, `M`, a 16-bit length (high octet
//! first) and the sheet's octets. EXPECTED has the output of each sheet, one
//! after the other with nothing between.

mod odd;

use super::cases::{self, Files};
use crate::examples::{APPENDIX_B, MARKED};
use evaluator::sheet;

/// A sheet, and what it is there for.
#[derive(Clone, Debug, PartialEq, Eq)]
pub struct Message {
    pub name: String,
    pub sheet: Vec<u8>,
}

/// All sheets in their order: the marked ones, those of RFC 9989's appendix B,
/// the broken and odd ones. The error is of a sheet that cannot be written.
pub fn messages() -> Result<Vec<Message>, String> {
    let mut messages = Vec::new();
    for (table, rows) in [("marked sheet", MARKED), ("RFC 9989,", APPENDIX_B)] {
        for row in rows {
            messages.push(Message {
                name: format!("{table} {}", row.name),
                sheet: row.sheet()?,
            });
        }
    }
    let odd = odd::sheets().into_iter().map(|(name, sheet)| Message {
        name: name.to_string(),
        sheet,
    });
    messages.extend(odd);
    Ok(messages)
}

/// The error is of a sheet that cannot be written, or is too long for its length.
pub fn files() -> Result<Files, String> {
    let mut files = Files::default();
    for message in messages()? {
        let octets = cases::octets(b'M', &message.sheet);
        let octets = octets.ok_or("a sheet is too long for its length")?;
        files.push(&octets, &sheet::run(&message.sheet));
    }
    Ok(files)
}
