//! The processor time of the proved report, beside that of a plain writer in Rust.

use std::hint::black_box;

use crate::domains;
use crate::histories::agreement;
use crate::histories::tally::Tally;
use crate::histories::Proved;
use crate::processor::time_of_one;
use crate::reports::{asked, in_c, inputs, longest, Day};
use evaluator::aggregate::{text, Feedback, Inputs, MOST_OCTETS};
use waslidhaj::calls;

/// Days of 256 rows with 16 identifiers each, with short names and with names as long as
/// can be.
pub fn longest_days() -> [(&'static str, Day); 2] {
    let long = domains::longest();
    [
        ("short names", longest(b"s1", b"mail.example.com")),
        ("names of 253 octets", longest(&long, &long)),
    ]
}

/// Prints the time of their reports. The error is of a report that is not the same.
pub fn print(count: u64) -> Result<(), String> {
    let days = longest_days();
    days.iter()
        .try_for_each(|(name, day)| print_day(name, day, count))
}

fn print_day(name: &str, day: &Day, count: u64) -> Result<(), String> {
    let left = agreement::check(&Proved, &day.history, &mut Tally::default())?;
    let beside = day.lists();
    let (asked, inputs) = (asked(day, &left, &beside), inputs(day, &left, &beside));
    let expected = text(&inputs).map_err(|refusal| refusal.to_string())?;
    println!(
        "256 rows of 16 identifiers, {name}: {} octets",
        expected.len()
    );
    let [proved, with_most] = [expected.len(), MOST_OCTETS].map(|lent| {
        let mut out = vec![0; lent];
        let own = time_of_one(count, || {
            black_box(in_c(black_box(&asked), &mut out));
        });
        out.starts_with(&expected).then_some(own)
    });
    let (Some(proved), Some(with_most)) = (proved, with_most) else {
        return Err(format!("another report, {name}"));
    };
    let gather = time_of_one(count, || {
        black_box(calls::gather(black_box(asked.rows)));
    });
    let mut out = vec![0; expected.len()];
    let copied = time_of_one(count, || {
        out.copy_from_slice(black_box(&expected));
        black_box(&out);
    });
    let [judged, plain] = plain_times(&inputs, count)?;
    print_time("proved, gathered and written", proved, proved);
    print_time(
        &format!("proved, gathered and written, lent {MOST_OCTETS} octets"),
        with_most,
        proved,
    );
    print_time("proved, gathered alone", gather, proved);
    print_time("plain Rust, judged and written", judged, proved);
    print_time("plain Rust, written alone", plain, proved);
    print_time("copied", copied, proved);
    Ok(())
}

/// The plain writer, with all that is judged before it and alone.
fn plain_times(inputs: &Inputs, count: u64) -> Result<[f64; 2], String> {
    let feedback = Feedback::of(inputs).map_err(|refusal| refusal.to_string())?;
    let mut lent = Vec::with_capacity(MOST_OCTETS);
    let judged = time_of_one(count, || {
        lent.clear();
        if let Ok(own) = Feedback::of(black_box(inputs)) {
            own.write(&mut lent);
        }
        black_box(&lent);
    });
    let plain = time_of_one(count, || {
        lent.clear();
        black_box(&feedback).write(&mut lent);
        black_box(&lent);
    });
    Ok([judged, plain])
}

fn print_time(name: &str, own: f64, proved: f64) {
    println!(
        "{name} {own:.1} microseconds, proved / this {:.2}",
        proved / own
    );
}
