//! The time of both evaluators on the same sheets, in one process.

use std::collections::BTreeMap;
use std::hint::black_box;
use std::time::{Duration, Instant};

use crate::agreement::LENT_OCTETS;
use evaluator::sheet;
use sheets::generate::ordinary;
use waslidhaj::calls;

const ROUNDS: usize = 7;
/// "its last 7 if x is over 8": a walk skips labels of a domain of more.
const MOST_LABELS_UNSKIPPED: usize = 8;

/// What the sheets have.
#[derive(Default)]
struct Contents {
    verdicts: usize,
    /// Walks by the number of targets they look at.
    walks: BTreeMap<usize, usize>,
    /// Walks from domains of over 8 labels.
    skipping: usize,
}

/// Prints the least time of each evaluator, and what the sheets have.
pub fn print(count: u64, seed: u64) {
    let sheets: Vec<Vec<u8>> = (0..count).map(|index| ordinary(seed, index)).collect();
    let contents = contents(&sheets);
    let octets: usize = sheets.iter().map(Vec::len).sum();
    println!("sheets {count} of seed {seed}, {octets} octets in all");
    println!("reaching a verdict {}", contents.verdicts);
    for (length, walks) in &contents.walks {
        println!("walks of length {length}: {walks}");
    }
    println!("walks from over 8 labels: {}", contents.skipping);
    let (proved, reference) = least_times(&sheets);
    print_time("proved", proved, count);
    print_time("reference", reference, count);
    let times = proved.as_secs_f64() / reference.as_secs_f64();
    println!("proved / reference {times:.2}");
}

fn contents(sheets: &[Vec<u8>]) -> Contents {
    let mut contents = Contents::default();
    let reasoned = sheets.iter().map(|sheet| sheet::reasoned(sheet));
    for reasoned in reasoned.flatten() {
        contents.verdicts += 1;
        for walk in reasoned.grounds.walks() {
            *contents.walks.entry(walk.looked).or_default() += 1;
            let skips = walk.start.label_count() > MOST_LABELS_UNSKIPPED;
            contents.skipping += usize::from(skips);
        }
    }
    contents
}

/// The least time of each, the proved evaluator's first.
fn least_times(sheets: &[Vec<u8>]) -> (Duration, Duration) {
    let mut out = vec![0; LENT_OCTETS];
    let (mut proved, mut reference) = (Duration::MAX, Duration::MAX);
    for _ in 0..ROUNDS {
        proved = proved.min(time(sheets, |sheet| {
            black_box(calls::run(black_box(sheet), &mut out));
        }));
        reference = reference.min(time(sheets, |sheet| {
            black_box(sheet::run(black_box(sheet)));
        }));
    }
    (proved, reference)
}

fn time(sheets: &[Vec<u8>], mut run: impl FnMut(&[u8])) -> Duration {
    let begin = Instant::now();
    for sheet in sheets {
        run(sheet);
    }
    begin.elapsed()
}

fn print_time(name: &str, time: Duration, count: u64) {
    let milliseconds = time.as_secs_f64() * 1e3;
    let each = time.as_secs_f64() * 1e6 / count.max(1) as f64;
    println!("{name} {milliseconds:.1} ms, {each:.2} microseconds a sheet");
}
