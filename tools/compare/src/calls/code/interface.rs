//! The calls by the C interface: what each may give, and that it gives no more.

use crate::alike::BEHIND;
use evaluator::policy::Policy;
use evaluator::refusal::Refusal;
use evaluator::rows::Finding;
use evaluator::txt::Status;
use evaluator::verdict::{Alignment, AppliedPolicy, Disposition, DmarcResult, Verdict};
use sheets::programs::calls::{AnswerCall, Call, Told};
use sheets::programs::lent::FILL;
use waslidhaj::raw::{self, Called, Found, Given, State, Written};
use waslidhaj::{calls, DOMAIN_OCTETS, IDENTIFIERS};

/// What a number means.
const RESULTS: [DmarcResult; 5] = [
    DmarcResult::None,
    DmarcResult::Pass,
    DmarcResult::Fail,
    DmarcResult::Temperror,
    DmarcResult::Permerror,
];
const POLICIES: [AppliedPolicy; 4] = [
    AppliedPolicy::Known(Policy::None),
    AppliedPolicy::Known(Policy::Quarantine),
    AppliedPolicy::Known(Policy::Reject),
    AppliedPolicy::Unknown,
];
const DISPOSITIONS: [Disposition; 4] = [
    Disposition::None,
    Disposition::Quarantine,
    Disposition::Reject,
    Disposition::Defer,
];
const ALIGNMENTS: [Alignment; 4] = [
    Alignment::NotJudged,
    Alignment::Aligned,
    Alignment::NotAligned,
    Alignment::Unknown,
];

/// Makes a call; an error is answered by this number. Gives the evaluation to go
/// on with and what is told, or what no call may give.
pub fn make(
    state: State,
    call: &Call,
    error: u8,
    lent: &mut [u8],
) -> Result<(State, Told), String> {
    let stays = |given: Given| Called { state, given };
    let called = match call {
        Call::Open(given) => calls::open(state, &given.author, given.existence, given.support),
        Call::Add(given) => calls::add(state, given.kind, given.outcome, &given.domain),
        Call::Next => calls::next(state),
        Call::Answer(given) => {
            let status = status(given, error);
            calls::answer(state, &given.name, status, &given.bytes, lent)
        }
        Call::Result => stays(calls::result(state)),
        Call::Field { .. } => stays(calls::field(state, lent)),
        Call::Finding => return Ok((state, found(state, &calls::finding(state))?)),
    };
    let told = told(call, called.state, &called.given)?;
    Ok((called.state, told))
}

/// The status of an answer; an error is of this number.
pub fn status(given: &AnswerCall, error: u8) -> u8 {
    match given.status {
        Status::Records => 0,
        Status::None => 1,
        Status::Error => error,
    }
}

/// What is told, by the kinds that a call may give.
fn told(call: &Call, state: State, given: &Given) -> Result<Told, String> {
    let told = match (given.kind, call) {
        (raw::ACCEPTED, Call::Field { .. }) => Told::Wrote(given.length),
        (raw::ACCEPTED, Call::Open(_) | Call::Add(_) | Call::Answer(_)) if given.length == 0 => {
            Told::Accepted
        }
        (raw::ASK, Call::Next) => Told::Ask(name(state, given)?),
        (raw::VERDICT, Call::Next | Call::Result) => Told::Verdict(verdict(state, given)?),
        (raw::REFUSED, _) if given.refusal.number != 0 => Told::Refused(refusal(given.refusal)),
        _ => return Err(format!("{} gives {given:?}", call.word())),
    };
    match *given == alone(given) {
        true => Ok(told),
        false => Err(format!("more than its kind has: {given:?}")),
    }
}

/// What is given, but for what its kind does not have: 0, and temperror, unknown
/// and defer in place of a verdict.
pub fn alone(given: &Given) -> Given {
    let mut own = Given {
        kind: given.kind,
        ..Given::default()
    };
    match given.kind {
        raw::ASK => (own.walk, own.place) = (given.walk, given.place),
        raw::VERDICT => own.verdict = given.verdict,
        raw::REFUSED => own.refusal = given.refusal,
        _ => own.length = given.length,
    }
    own
}

pub fn refusal(refusal: raw::Refusal) -> Refusal {
    Refusal::new(refusal.number, refusal.place)
}

fn listed<T: Copy>(meanings: &[T], number: u8) -> Result<T, String> {
    let meant = meanings.get(usize::from(number)).copied();
    meant.ok_or_else(|| format!("{number} is no number of a verdict"))
}

fn verdict(state: State, given: &Given) -> Result<Verdict, String> {
    let raw = &given.verdict;
    let identifiers = state.identifiers.min(IDENTIFIERS);
    if raw.alignments >> (2 * identifiers) != 0 {
        return Err(format!("alignments past the {identifiers} identifiers"));
    }
    let alignment = |index: usize| ALIGNMENTS[raw.alignments >> (2 * index) & 3];
    Ok(Verdict {
        result: listed(&RESULTS, raw.result)?,
        domain: domain(state, raw.begin)?,
        policy: listed(&POLICIES, raw.policy)?,
        disposition: listed(&DISPOSITIONS, raw.disposition)?,
        alignments: (0..identifiers).map(alignment).collect(),
        asked: raw.count,
    })
}

fn found(state: State, found: &Found) -> Result<Told, String> {
    let numbers = found.finding;
    let (own, told) = match found.kind {
        raw::VERDICT => {
            let finding = Finding {
                result: numbers.result,
                disposition: numbers.disposition,
                dkim: numbers.dkim,
                spf: numbers.spf,
                domain: domain(state, found.begin)?,
            };
            let refusal = raw::Refusal::default();
            (Found { refusal, ..*found }, Told::Finding(finding))
        }
        raw::REFUSED if found.refusal.number != 0 => {
            let own = Found {
                kind: found.kind,
                refusal: found.refusal,
                ..Found::default()
            };
            (own, Told::Refused(refusal(found.refusal)))
        }
        _ => return Err(format!("finding gives {found:?}")),
    };
    match own == *found {
        true => Ok(told),
        false => Err(format!("what its kind does not have is not 0: {found:?}")),
    }
}

fn name(state: State, given: &Given) -> Result<Vec<u8>, String> {
    written(|out| calls::name(state, given.walk, given.place, out))
}

fn domain(state: State, begin: usize) -> Result<Vec<u8>, String> {
    written(|out| calls::domain(state, begin, out))
}

/// What a writer writes: into memory that is always enough, and into memory with
/// one octet too few, which must be refused 10 and left as it is.
pub fn written(write: impl Fn(&mut [u8]) -> Written) -> Result<Vec<u8>, String> {
    let mut out = [FILL; DOMAIN_OCTETS + BEHIND];
    let (lent, _) = out.split_at_mut(DOMAIN_OCTETS);
    let written = write(lent);
    let length = written.length.min(DOMAIN_OCTETS);
    let (text, rest) = out.split_at(length);
    if written.refusal.number != 0 || length != written.length {
        return Err(format!("{written:?} of {DOMAIN_OCTETS} octets lent"));
    }
    if rest.iter().any(|octet| *octet != FILL) {
        return Err("octets past a name or domain were written".to_string());
    }
    if let Some(short) = length.checked_sub(1) {
        refused_short(&write, short)?;
    }
    Ok(text.to_vec())
}

fn refused_short(write: &impl Fn(&mut [u8]) -> Written, short: usize) -> Result<(), String> {
    let mut out = [FILL; DOMAIN_OCTETS + BEHIND];
    let (lent, _) = out.split_at_mut(short);
    let written = write(lent);
    let expected = Written {
        refusal: raw::Refusal {
            number: 10,
            place: short + 1,
        },
        length: 0,
    };
    match written == expected && out.iter().all(|octet| *octet == FILL) {
        true => Ok(()),
        false => Err(format!("{written:?} of {short} octets lent")),
    }
}
