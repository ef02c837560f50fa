//! The processor time of the proved calls, on messages whose walks are all of full
//! length, and of the proved reader of the field.

use std::hint::black_box;

use crate::processor::{least, microseconds};
use evaluator::txt::Status;
use sheets::programs::calls::{AnswerCall, Call};
use sheets::programs::timing::{message, IDENTIFIERS, WALKS};
use waslidhaj::{Answer, Evaluation, Step, SCRATCH_OCTETS};

const ROUNDS: usize = 7;
/// As many names at the beginning and at the end of the longest message.
const NAMES: usize = 16;

/// Prints the least time of a message of each kind, then that of a step and of an
/// answer at both ends of the longest one. The error is of a call that is refused.
pub fn print(count: u64) -> Result<(), String> {
    for identifiers in IDENTIFIERS {
        for walk in WALKS {
            let calls = message(identifiers, walk);
            let mut evaluation = Evaluation::EMPTY;
            let names = replay(&calls, &mut evaluation)?;
            let time = least(ROUNDS, || {
                for _ in 0..count {
                    let _ = black_box(replay(black_box(&calls), &mut evaluation));
                }
            });
            let each = microseconds(time, count);
            println!(
                "{identifiers} identifiers, walks of {walk}: {names} names, \
                 {each:.2} microseconds a message"
            );
        }
    }
    print_steps(count)?;
    print_fields(count);
    Ok(())
}

/// The longest field that we write, and fields with a comment of so many octets.
fn print_fields(count: u64) {
    let written = b"Identity-Alignment: dkim, spf\r\n".to_vec();
    print_field("the longest that we write", &written, count * 100);
    for kibibytes in [64, 1024] {
        let comment = "x".repeat(kibibytes << 10);
        let field = format!("Identity-Alignment: ({comment}) none\r\n");
        let name = format!("a comment of {kibibytes} KiB");
        print_field(&name, field.as_bytes(), count.div_ceil(100));
    }
}

fn print_field(name: &str, field: &[u8], count: u64) {
    let time = least(ROUNDS, || {
        for _ in 0..count {
            let _ = black_box(waslidhaj::read_field(black_box(field)));
        }
    });
    let (octets, each) = (field.len(), microseconds(time, count));
    println!("a field of {octets} octets ({name}): {each:.3} microseconds");
}

/// Makes the calls, and gives how many names the verdict counts.
fn replay(calls: &[Call], evaluation: &mut Evaluation) -> Result<usize, String> {
    let mut asked = 0;
    for call in calls {
        if let Some(Step::Verdict(verdict)) = make(call, evaluation)? {
            asked = verdict.asked;
        }
    }
    Ok(asked)
}

/// Makes a call of such a message.
fn make(call: &Call, evaluation: &mut Evaluation) -> Result<Option<Step>, String> {
    let made = match call {
        Call::Open(given) => evaluation.open_over(&given.author, given.existence, given.support),
        Call::Add(given) => evaluation.add_by_numbers(given.kind, given.outcome, &given.domain),
        Call::Answer(given) => answer(given, evaluation),
        _ => return evaluation.next().map(Some).map_err(|own| own.to_string()),
    };
    made.map(|()| None).map_err(|own| own.to_string())
}

fn answer(given: &AnswerCall, evaluation: &mut Evaluation) -> Result<(), waslidhaj::Refusal> {
    let answer = match given.status {
        Status::Records => Answer::Records(&given.bytes),
        Status::None => Answer::NoRecords,
        Status::Error => Answer::Error,
    };
    evaluation.answer(&given.name, answer, &mut [0; SCRATCH_OCTETS])
}

/// A call, and the evaluation before it.
type Place = (Evaluation, Call);

fn print_steps(count: u64) -> Result<(), String> {
    let (most, longest) = (IDENTIFIERS[2], WALKS[1]);
    let mut evaluation = Evaluation::EMPTY;
    let (mut steps, mut answers): (Vec<Place>, Vec<Place>) = (Vec::new(), Vec::new());
    for call in message(most, longest) {
        match call {
            Call::Next => steps.push((evaluation, call.clone())),
            Call::Answer(_) => answers.push((evaluation, call.clone())),
            _ => {}
        }
        make(&call, &mut evaluation)?;
    }
    // The last step gives the verdict.
    steps.pop();
    for (word, places) in [("next", steps), ("answer", answers)] {
        let last = places.len().saturating_sub(NAMES);
        let first = time_of(places.get(..NAMES).unwrap_or_default(), count);
        let last = time_of(places.get(last..).unwrap_or_default(), count);
        println!(
            "{most} identifiers, walks of {longest}: {word} {first:.2} microseconds \
             for the first {NAMES} names, {last:.2} for the last {NAMES}"
        );
    }
    Ok(())
}

/// Microseconds of one of these calls.
fn time_of(places: &[Place], count: u64) -> f64 {
    let time = least(ROUNDS, || {
        for _ in 0..count {
            for (evaluation, call) in places {
                let mut evaluation = *evaluation;
                let _ = black_box(make(black_box(call), &mut evaluation));
            }
        }
    });
    microseconds(time, count * places.len() as u64)
}

#[cfg(test)]
mod tests {
    use super::*;

    #[test]
    fn the_messages_are_run() {
        for (identifiers, walk, names) in [(1, 3, 6), (16, 8, 136)] {
            let calls = message(identifiers, walk);
            assert_eq!(replay(&calls, &mut Evaluation::default()), Ok(names));
        }
        let late = [Call::Next];
        let refused = replay(&late, &mut Evaluation::default());
        assert_eq!(refused, Err("refused 7 at 0".to_string()));
    }
}
