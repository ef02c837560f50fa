//! Messages whose walks are all of full length, for measuring time.

use crate::programs::calls::{AddCall, AnswerCall, Call, OpenCall};
use evaluator::book::{Book, Step};
use evaluator::txt::Status;

/// Numbers of identifiers, and lengths of the walks.
pub const IDENTIFIERS: [usize; 3] = [1, 4, 16];
pub const WALKS: [usize; 2] = [3, 8];
/// The author's record.
const RECORD: &[u8] = b"TX\0\x13\x12v=DMARC1; p=reject";

/// A domain of so many labels that shares no name with another number.
fn domain(labels: usize, number: usize) -> String {
    let front = ["a", "b", "c", "d", "e", "f", "g"].into_iter();
    let front: String = front
        .take(labels - 1)
        .map(|word| format!("{word}."))
        .collect();
    format!("{front}top{number}")
}

/// The calls of a message: its opening, identifiers that pass, of domains that
/// have no record, then next step and answer in turn up to the verdict. The
/// author's own domain has a record, which is relaxed.
pub fn message(identifiers: usize, labels: usize) -> Vec<Call> {
    let domain = |number| domain(labels, number).into_bytes();
    let mut calls = vec![Call::Open(OpenCall::of(&domain(0)))];
    let added = (1..=identifiers).map(|number| Call::Add(AddCall::new(1, 1, &domain(number))));
    calls.extend(added);
    let mut book = Book::default();
    for call in &calls {
        call.make(&mut book, &mut []);
    }
    while let Ok(Step::Ask(asked)) = book.next_step() {
        let answer = Call::Answer(match asked.walk == 0 && asked.place == 0 {
            true => AnswerCall {
                status: Status::Records,
                bytes: RECORD.to_vec(),
                ..AnswerCall::none(&asked.name)
            },
            false => AnswerCall::none(&asked.name),
        });
        answer.make(&mut book, &mut [0; 4096]);
        calls.extend([Call::Next, answer]);
    }
    calls.push(Call::Next);
    calls
}
