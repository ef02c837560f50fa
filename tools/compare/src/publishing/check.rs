//! One record by both: what is written is read back as what was handed in, and
//! what is read can be written again.

use super::tally::Tally;
use records::agreement::{read, write, Reading, Writing, Written, ROOM};
use records::code::{numbers, settings, Code};
use sheets::description::quoted;

/// Settings written by both, and read back by both.
pub fn check_writing(code: &impl Code, writing: &Writing, tally: &mut Tally) -> Result<(), String> {
    let written = write(code, writing)?;
    tally.wrote(&written);
    let Ok(record) = written else {
        return Ok(());
    };
    let handed_in = Reading {
        settings: settings(writing.numbers, !writing.rua.is_empty()),
        rua: writing.rua,
    };
    reads_as(code, &record, handed_in).map(|_| ())
}

/// A text read by both; what it sets is written, read, and written again.
pub fn check_text(code: &impl Code, text: &[u8], tally: &mut Tally) -> Result<(), String> {
    let reading = read(code, text)?;
    tally.read(reading.is_some());
    let Some(reading) = reading else {
        return Ok(());
    };
    let Ok(record) = written(code, &reading)? else {
        return Ok(());
    };
    let back = reads_as(code, &record, reading)?;
    let again = written(code, &back)?;
    if again.as_ref() != Ok(&record) {
        let (once, again) = (quoted(&record), again.map(|record| quoted(&record)));
        return Err(format!("{once} written again becomes {again:?}"));
    }
    tally.again += 1;
    Ok(())
}

/// What both write of what was read, with room enough.
fn written(code: &impl Code, reading: &Reading) -> Result<Written, String> {
    let writing = Writing {
        numbers: numbers(&reading.settings),
        rua: reading.rua,
        lent: ROOM,
    };
    write(code, &writing)
}

/// What both read of a record, held to what was handed in.
fn reads_as<'a>(
    code: &impl Code,
    record: &'a [u8],
    handed_in: Reading,
) -> Result<Reading<'a>, String> {
    let back = read(code, record)?;
    back.filter(|back| *back == handed_in).ok_or_else(|| {
        let record = quoted(record);
        format!("{record} reads back as {back:?}, and {handed_in:?} was handed in")
    })
}
