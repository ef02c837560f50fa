//! One text by both, as it arrives.

use super::arrival::{Act, Arrival};
use super::code::{Code, Row, Step, Told};
use super::tally::Tally;
use super::written::Written;
use evaluator::received::Reader;
use evaluator::refusal::Refusal;

/// As many octets of a text are shown before the place of a fault, and behind it.
const SHOWN: usize = 100;

/// Checks the code on one arrival of a text; the error has both.
pub fn check(
    code: &impl Code,
    text: &[u8],
    arrival: &Arrival,
    tally: &mut Tally,
) -> Result<(), String> {
    run(code, text, arrival, tally)?;
    tally.arrivals += 1;
    Ok(())
}

/// "Reading a written report gives the rows written, in order", as it arrives in each of
/// these ways.
pub fn check_written(
    code: &impl Code,
    written: &Written,
    ways: impl IntoIterator<Item = Arrival>,
    tally: &mut Tally,
) -> Result<(), String> {
    for arrival in ways {
        let rows = run(code, &written.text, &arrival, tally)?;
        same_rows(&rows, &written.rows)?;
        tally.arrivals += 1;
    }
    tally.written += 1;
    Ok(())
}

fn same_rows(rows: &[Row], written: &[Row]) -> Result<(), String> {
    let mut pairs = rows.iter().zip(written);
    match pairs.find(|(read, own)| read != own) {
        Some((read, own)) => Err(format!("written was {own}\nread is {read}")),
        None if rows.len() != written.len() => Err(format!(
            "{} rows were written, {} are read",
            written.len(),
            rows.len()
        )),
        None => Ok(()),
    }
}

/// The rows on which both agree; the error has the text about the fault.
fn run(
    code: &impl Code,
    text: &[u8],
    arrival: &Arrival,
    tally: &mut Tally,
) -> Result<Vec<Row>, String> {
    let mut both = Both {
        code,
        state: code.start(),
        reader: Reader::new(),
        rows: Vec::new(),
        last: None,
    };
    for act in &arrival.0 {
        let (made, place) = match act {
            Act::Part(part) => {
                tally.parts += 1;
                let octets = text.get(part.clone()).unwrap_or_default();
                (both.part(octets), part.start)
            }
            Act::End => (both.end(), text.len()),
        };
        made.map_err(|fault| format!("{fault}\n{}\n-- arrives as\n{arrival}", about(text, place)))?;
    }
    tally.add(both.rows.len(), both.last);
    Ok(both.rows)
}

/// Both at the same place of a text.
struct Both<'c, C: Code> {
    code: &'c C,
    state: C::State,
    reader: Reader,
    rows: Vec<Row>,
    /// The last answer, where it is one of an end or a refusal.
    last: Option<Result<(), Refusal>>,
}

impl<C: Code> Both<'_, C> {
    fn part(&mut self, part: &[u8]) -> Result<(), String> {
        let mut rest = part;
        loop {
            let given = self.code.step(&mut self.state, rest)?;
            let step = self.reader.step(rest);
            let read = step.read;
            let expected = Told::of(step.told);
            same(&given.told, &expected)?;
            same_read(&given, read)?;
            rest = rest.get(read..).unwrap_or_default();
            match given.told {
                Told::Row(row) => self.rows.push(*row),
                Told::More => return Ok(()),
                Told::Refused(refusal) => {
                    self.last = Some(Err(refusal));
                    return Ok(());
                }
            }
        }
    }

    fn end(&mut self) -> Result<(), String> {
        let given = self.code.end(&mut self.state)?;
        let end = self.reader.end();
        self.last = Some(end);
        same(&given, &Told::of_end(end))
    }
}

fn same(given: &Told, expected: &Told) -> Result<(), String> {
    match given == expected {
        true => Ok(()),
        false => Err(format!(
            "the answers differ\n-- the proved code\n{given}\n-- the reference\n{expected}"
        )),
    }
}

fn same_read(given: &Step, expected: usize) -> Result<(), String> {
    match given.read == expected || matches!(given.told, Told::Refused(_)) {
        true => Ok(()),
        false => Err(format!(
            "{} octets of the part are read, {expected} by the reference, then: {}",
            given.read, given.told
        )),
    }
}

/// The text about a place.
fn about(text: &[u8], place: usize) -> String {
    let (begin, end) = (
        place.saturating_sub(SHOWN),
        (place + 8 * SHOWN).min(text.len()),
    );
    let shown = text.get(begin..end).unwrap_or_default();
    let octets = text.len();
    format!(
        "-- of {octets} octets, from {begin} on\n{}",
        shown.escape_ascii()
    )
}
