//! Identifiers that are added in time and too late (Ask 8 of document 02), call
//! by call.

use super::call::{AddCall, AnswerCall, Call, OpenCall};
use evaluator::message::MOST_IDENTIFIERS;
use evaluator::txt::Status;

/// A record of strict modes.
const STRICT: &[u8] = b"TX\0\x22\x21v=DMARC1; p=reject;adkim=s;aspf=s";

/// These calls in their order, after any others.
pub fn calls() -> Vec<Call> {
    [
        in_time_and_too_late(),
        opened_over(),
        as_many_as_there_can_be(),
    ]
    .concat()
}

fn open(author: &[u8]) -> Call {
    Call::Open(OpenCall::of(author))
}

fn add(kind: u8, outcome: u8, domain: &[u8]) -> Call {
    Call::Add(AddCall::new(kind, outcome, domain))
}

/// A good identifier, and ones that would be refused 3 and 2.
fn any() -> [Call; 3] {
    [
        add(1, 1, b"example.com"),
        add(2, 1, b"example.com"),
        add(1, 1, b"a..b"),
    ]
}

/// A refused call closes nothing; a name or the verdict does.
fn in_time_and_too_late() -> Vec<Call> {
    let answer = Call::Answer(AnswerCall {
        status: Status::Records,
        bytes: STRICT.to_vec(),
        ..AnswerCall::none(b"_dmarc.example.com")
    });
    let field = Call::Field { size: 64 };
    let mut calls = vec![open(b"example.com"), Call::Result, add(1, 1, b"a.example")];
    calls.extend([field.clone(), add(0, 1, b"Example.com."), Call::Finding]);
    calls.extend([add(0, 0, b"b.example"), add(0, 3, b"b.example")]);
    calls.extend([add(1, 1, b"a..b"), answer.clone(), open(b"a..b")]);
    calls.extend([add(1, 1, b"mail.example.com"), add(2, 2, b""), Call::Next]);
    calls.extend(any());
    calls.extend([open(b".."), add(1, 1, b"a.example"), Call::Next]);
    calls.extend([add(0, 1, b"a.example"), answer]);
    calls.extend(any());
    calls.push(Call::Result);
    calls.extend(any());
    calls.push(Call::Next);
    calls.extend(any());
    calls.push(field);
    calls
}

/// An opening over a running evaluation begins afresh.
fn opened_over() -> Vec<Call> {
    let spf = add(0, 1, b"example.com");
    let mut calls = vec![open(b"example.com"), spf.clone(), add(1, 1, b"a.example")];
    calls.extend([open(b"example.org"), spf.clone(), spf.clone(), Call::Next]);
    // The name that was asked before is asked no more.
    let late = Call::Answer(AnswerCall::none(b"_dmarc.example.org"));
    calls.extend([open(b"example.net"), late, add(2, 1, b"a.example")]);
    calls.extend([spf.clone(), Call::Next, spf]);
    calls
}

/// 16 identifiers, and a 17th.
fn as_many_as_there_can_be() -> Vec<Call> {
    let mut calls = vec![open(b"example.com")];
    calls.extend((0..MOST_IDENTIFIERS).map(|number| {
        let domain = format!("d{number}.example");
        add(1, 0, domain.as_bytes())
    }));
    calls.extend(any());
    calls.extend([add(0, 1, b"example.com"), Call::Next]);
    calls.extend(any());
    calls
}
