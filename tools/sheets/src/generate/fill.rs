//! Sheets made longer.

use crate::written::Record;

/// Answers that are never asked, up to so many octets; the last few octets may
/// be left over.
pub fn fill(sheet: &mut Vec<u8>, octets: usize, number: &mut usize) {
    while sheet.len() < octets {
        let room = octets - sheet.len();
        *number += 1;
        let name = format!("_dmarc.fill-{number}a").into_bytes();
        let mut record = Record::answer(0, &name, b"");
        if room < record.body.len() + 4 {
            sheet.resize(octets, 0);
            return;
        }
        let most = if room > 40_000 { 20_000 } else { room - 4 };
        record.body.resize(most, b'f');
        let _ = record.push(sheet);
    }
}
