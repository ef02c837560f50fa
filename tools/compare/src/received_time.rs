//! The processor time of the proved reader of reports, beside that of a plain one in Rust
//! and that of copying.

use std::hint::black_box;

use crate::histories::agreement;
use crate::histories::tally::Tally;
use crate::histories::Proved;
use crate::processor::time_of_one;
use crate::report_time::longest_days;
use crate::reports::{inputs, Day};
use evaluator::aggregate::text;
use evaluator::received::{Reader, Told};
use evaluator::refusal::Refusal;
use records::code::accepted;
use waslidhaj::calls;
use waslidhaj::raw::{self, READ_MORE};

/// Octets of the parts in which a report arrives.
const PARTS: [usize; 3] = [usize::MAX, 1_400, 1];

/// Prints the time of the longest reports in parts of several sizes. The error is of a
/// report that is not read.
pub fn print(count: u64) -> Result<(), String> {
    for (name, day) in longest_days() {
        print_day(name, &day, count)?;
    }
    Ok(())
}

fn print_day(name: &str, day: &Day, count: u64) -> Result<(), String> {
    let left = agreement::check(&Proved, &day.history, &mut Tally::default())?;
    let beside = day.lists();
    let text = text(&inputs(day, &left, &beside)).map_err(|refusal| refusal.to_string())?;
    println!("256 rows of 16 identifiers, {name}: {} octets", text.len());
    PARTS
        .into_iter()
        .try_for_each(|size| print_size(&text, size, count))
}

/// The times of a report in parts of a size.
fn print_size(text: &[u8], size: usize, count: u64) -> Result<(), String> {
    let read = [proved(text, size), plain(text, size)];
    let rows = match read {
        [Ok(own), Ok(other)] if own == other => own,
        other => return Err(format!("not read by both alike: {other:?}")),
    };
    println!("{rows} rows in {} parts", text.len().div_ceil(size));
    let mut out = vec![0; text.len()];
    let times = [
        time_of_one(count, || {
            let _ = black_box(proved(black_box(text), size));
        }),
        time_of_one(count, || {
            let _ = black_box(plain(black_box(text), size));
        }),
        time_of_one(count, || copy(black_box(text), size, black_box(&mut out))),
    ];
    for (name, own) in ["proved", "plain Rust", "copied"].into_iter().zip(times) {
        let rate = text.len() as f64 / own;
        let ratio = times[0] / own;
        println!("{name} {own:.1} microseconds, {rate:.0} million octets a second, proved / this {ratio:.2}");
    }
    Ok(())
}

/// Reads a report in parts of a size; how many rows it has.
fn plain(text: &[u8], size: usize) -> Result<usize, Refusal> {
    let (mut reader, mut rows) = (Reader::new(), 0);
    for part in text.chunks(size) {
        let mut rest = part;
        loop {
            let step = reader.step(rest);
            rest = rest.get(step.read..).unwrap_or_default();
            match step.told {
                Told::Row(row) => rows += usize::from(black_box(row).count > 0),
                Told::More => break,
                Told::Refused(refusal) => return Err(refusal),
            }
        }
    }
    reader.end()?;
    Ok(rows)
}

/// The same by the proved code.
fn proved(text: &[u8], size: usize) -> Result<usize, Refusal> {
    let (state, row) = (calls::new_reader(), [0; raw::ROW_OCTETS]);
    let (mut reader, mut rows) = (raw::Reader { state, row }, 0);
    for part in text.chunks(size) {
        let mut rest = part;
        loop {
            let fed = calls::read(reader.state, rest, &mut reader.row);
            reader.state = fed.state;
            rest = rest.get(fed.used..).unwrap_or_default();
            match reader.received(fed.told) {
                Some(row) => rows += usize::from(black_box(row).count > 0),
                None if fed.told.is(READ_MORE) => break,
                None => return accepted(fed.told.refusal()).map(|()| rows),
            }
        }
    }
    accepted(calls::end(reader.state).told.refusal())?;
    Ok(rows)
}

/// Copies a text in parts of a size.
fn copy(text: &[u8], size: usize, out: &mut [u8]) {
    for (part, to) in text.chunks(size).zip(out.chunks_mut(size)) {
        to.copy_from_slice(black_box(part));
    }
    black_box(out);
}

#[cfg(test)]
mod tests {
    use super::*;
    use crate::received::PLAIN;

    #[test]
    fn reports_are_read_in_parts() {
        for size in PARTS {
            for read in [plain, proved] {
                assert_eq!(read(PLAIN.as_bytes(), size), Ok(1));
                let cut = read(&PLAIN.as_bytes()[..800], size);
                assert_eq!(cut, Err(Refusal::new(22, 800)));
                let other = PLAIN.replace("<count>3", "<count>0");
                let outside = Err(Refusal::new(20, 493));
                assert_eq!(read(other.as_bytes(), size), outside);
            }
        }
    }

    #[test]
    fn texts_are_copied() {
        for size in PARTS {
            let mut out = vec![0; PLAIN.len()];
            copy(PLAIN.as_bytes(), size, &mut out);
            assert_eq!(out, PLAIN.as_bytes());
        }
    }
}
