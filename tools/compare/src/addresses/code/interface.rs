//! The calls by the C interface: what each may give, and that it gives no more.

use crate::calls::interface::{refusal, status, written};
use evaluator::address::{Outcome, Verdict};
use sheets::programs::checks::{Call, Told};
use waslidhaj::calls;
use waslidhaj::raw::{self, Check, CheckCalled, CheckGiven};

/// Makes a call; an error is answered by this number. Gives the check to go on with
/// and what is told, or what no call may give.
pub fn make(
    check: Check,
    call: &Call,
    error: u8,
    lent: &mut [u8],
) -> Result<(Check, Told), String> {
    let called = match call {
        Call::Start(given) => calls::check_start(check, &given.policy, &given.entry),
        Call::Next => calls::check_next(check),
        Call::Answer(given) => {
            let status = status(given, error);
            calls::check_answer(check, &given.name, status, &given.bytes, lent)
        }
        Call::Result => CheckCalled {
            check,
            given: calls::check_result(check),
        },
    };
    if !goes_on(&called.given) && called.check != check {
        return Err(format!(
            "{} changes the check: {:?}",
            call.word(),
            called.given
        ));
    }
    let told = told(call, called.check, &called.given)?;
    Ok((called.check, told))
}

/// Whether a call may have changed the check: any other leaves every octet of it.
pub fn goes_on(given: &CheckGiven) -> bool {
    matches!(given.kind, raw::ACCEPTED | raw::ASK)
}

/// What is told, by the kinds that a call may give.
fn told(call: &Call, check: Check, given: &CheckGiven) -> Result<Told, String> {
    let name = |out: &mut [u8]| calls::check_name(check, given.walk, given.place, out);
    let told = match (given.kind, call) {
        (raw::ACCEPTED, Call::Start(_) | Call::Answer(_)) => Told::Accepted,
        (raw::ASK, Call::Next) => Told::Ask(written(name)?),
        (raw::OUTCOME, Call::Next | Call::Result) => Told::Verdict(Verdict {
            outcome: outcome(given)?,
            asked: given.count,
        }),
        (raw::REFUSED, _) if given.refusal.number != 0 => Told::Refused(refusal(given.refusal)),
        _ => return Err(format!("{} gives {given:?}", call.word())),
    };
    match *given == alone(given) {
        true => Ok(told),
        false => Err(format!("more than its kind has: {given:?}")),
    }
}

fn outcome(given: &CheckGiven) -> Result<Outcome, String> {
    let (begin, length) = (given.begin, given.length);
    Ok(match given.agreement {
        raw::ADDRESS_NOT_KNOWN => Outcome::NotKnown,
        raw::ADDRESS_NO => Outcome::No,
        raw::ADDRESS_INSIDE => Outcome::Inside,
        raw::ADDRESS_CONFIRMED => Outcome::Confirmed,
        raw::ADDRESS_REPLACED => Outcome::Replaced { begin, length },
        number => return Err(format!("{number} is no number of an outcome")),
    })
}

/// What is given, but for what its kind does not have, which is 0; an agreement that
/// is not listed is of no kind.
pub fn alone(given: &CheckGiven) -> CheckGiven {
    let mut own = CheckGiven {
        kind: given.kind,
        ..CheckGiven::default()
    };
    match given.kind {
        raw::ASK => (own.walk, own.place) = (given.walk, given.place),
        raw::OUTCOME => {
            own.agreement = given.agreement.min(raw::ADDRESS_REPLACED);
            own.count = given.count;
            if given.agreement == raw::ADDRESS_REPLACED {
                (own.begin, own.length) = (given.begin, given.length);
            }
        }
        raw::REFUSED => own.refusal = given.refusal,
        _ => {}
    }
    own
}
