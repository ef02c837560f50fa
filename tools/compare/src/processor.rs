//! Processor time.

use std::fs;
use std::sync::OnceLock;
use std::thread;
use std::time::{Duration, Instant};

/// The rounds of what is timed by one.
const ROUNDS: usize = 9;

/// The least time of several rounds.
pub fn least(rounds: usize, mut round: impl FnMut()) -> Duration {
    let times = (0..rounds).map(|_| {
        let begin = now();
        round();
        now().saturating_sub(begin)
    });
    times.min().unwrap_or_default()
}

/// Microseconds of one, the least of nine rounds of so many.
pub fn time_of_one(count: u64, mut one: impl FnMut()) -> f64 {
    let time = least(ROUNDS, || (0..count).for_each(|_| one()));
    microseconds(time, count)
}

/// Microseconds of each of so many.
pub fn microseconds(time: Duration, count: u64) -> f64 {
    time.as_secs_f64() * 1e6 / count.max(1) as f64
}

/// The processor time of this thread so far; where the system does not say, the
/// time that passed.
fn now() -> Duration {
    static BEGIN: OnceLock<Instant> = OnceLock::new();
    let begin = *BEGIN.get_or_init(Instant::now);
    processor_time().unwrap_or_else(|| begin.elapsed())
}

/// Nanoseconds on a processor are the first number of this file of Linux, which is
/// brought up to date where the processor is given away.
fn processor_time() -> Option<Duration> {
    thread::yield_now();
    let text = fs::read_to_string("/proc/thread-self/schedstat").ok()?;
    let nanoseconds = text.split_whitespace().next()?.parse().ok()?;
    Some(Duration::from_nanos(nanoseconds))
}

#[cfg(test)]
mod tests {
    use super::*;

    #[test]
    fn time_goes_on() {
        let begin = now();
        let mut rounds = 0_u64;
        while now() == begin && rounds < 1_000_000 {
            rounds += 1;
        }
        assert!(now() > begin, "{rounds} rounds");
    }
}
