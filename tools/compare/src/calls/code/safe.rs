//! The calls by the safe interface.

use evaluator::policy::Policy;
use evaluator::refusal::Refusal;
use evaluator::rows;
use evaluator::txt::Status;
use evaluator::verdict;
use sheets::programs::calls::{AddCall, AnswerCall, Call, Told};
use waslidhaj::{Alignment, Answer, AppliedPolicy, Disposition, DmarcResult, Evaluation};
use waslidhaj::{Finding, Kind, Outcome, Step, Verdict};

/// Makes a call.
pub fn make(evaluation: &mut Evaluation, call: &Call, lent: &mut [u8]) -> Told {
    let accepted = |()| Told::Accepted;
    match call {
        Call::Open(given) => {
            let (existence, support) = (given.existence, given.support);
            of(
                evaluation.open_over(&given.author, existence, support),
                accepted,
            )
        }
        Call::Add(given) => of(add(evaluation, given), accepted),
        Call::Next => of(evaluation.next(), step),
        Call::Answer(given) => {
            let answer = answer(given);
            of(evaluation.answer(&given.name, answer, lent), accepted)
        }
        Call::Result => of(evaluation.result(), |own| Told::Verdict(verdict(own))),
        Call::Field { .. } => of(evaluation.field(lent), Told::Wrote),
        Call::Finding => of(evaluation.finding(), |own| Told::Finding(finding(own))),
    }
}

fn of<T>(given: Result<T, waslidhaj::Refusal>, told: impl FnOnce(T) -> Told) -> Told {
    Told::of(given.map_err(refusal), told)
}

pub fn refusal(own: waslidhaj::Refusal) -> Refusal {
    Refusal::new(own.number, own.place)
}

/// Adds an identifier by its kind and outcome, or by numbers that are not listed.
fn add(evaluation: &mut Evaluation, given: &AddCall) -> Result<(), waslidhaj::Refusal> {
    let kinds = [Kind::Spf, Kind::Dkim];
    let outcomes = [Outcome::NotPassing, Outcome::Pass, Outcome::TemporaryError];
    let kind = kinds.get(usize::from(given.kind));
    match (kind, outcomes.get(usize::from(given.outcome))) {
        (Some(kind), Some(outcome)) => evaluation.add(*kind, *outcome, &given.domain),
        _ => evaluation.add_by_numbers(given.kind, given.outcome, &given.domain),
    }
}

pub fn answer(given: &AnswerCall) -> Answer<'_> {
    match given.status {
        Status::Records => Answer::Records(&given.bytes),
        Status::None => Answer::NoRecords,
        Status::Error => Answer::Error,
    }
}

fn step(step: Step) -> Told {
    match step {
        Step::Ask(name) => Told::Ask(name.as_bytes().to_vec()),
        Step::Verdict(own) => Told::Verdict(verdict(own)),
    }
}

fn verdict(own: Verdict) -> verdict::Verdict {
    verdict::Verdict {
        result: result(own.result),
        domain: own.domain.into_bytes(),
        policy: policy(own.policy),
        disposition: disposition(own.disposition),
        alignments: own.alignments.into_iter().map(alignment).collect(),
        asked: own.asked,
    }
}

fn result(own: DmarcResult) -> verdict::DmarcResult {
    match own {
        DmarcResult::None => verdict::DmarcResult::None,
        DmarcResult::Pass => verdict::DmarcResult::Pass,
        DmarcResult::Fail => verdict::DmarcResult::Fail,
        DmarcResult::Temperror => verdict::DmarcResult::Temperror,
        DmarcResult::Permerror => verdict::DmarcResult::Permerror,
    }
}

fn policy(own: AppliedPolicy) -> verdict::AppliedPolicy {
    let known = verdict::AppliedPolicy::Known;
    match own {
        AppliedPolicy::None => known(Policy::None),
        AppliedPolicy::Quarantine => known(Policy::Quarantine),
        AppliedPolicy::Reject => known(Policy::Reject),
        AppliedPolicy::Unknown => verdict::AppliedPolicy::Unknown,
    }
}

fn disposition(own: Disposition) -> verdict::Disposition {
    match own {
        Disposition::None => verdict::Disposition::None,
        Disposition::Quarantine => verdict::Disposition::Quarantine,
        Disposition::Reject => verdict::Disposition::Reject,
        Disposition::Defer => verdict::Disposition::Defer,
    }
}

fn alignment(own: Alignment) -> verdict::Alignment {
    match own {
        Alignment::NotJudged => verdict::Alignment::NotJudged,
        Alignment::Aligned => verdict::Alignment::Aligned,
        Alignment::NotAligned => verdict::Alignment::NotAligned,
        Alignment::Unknown => verdict::Alignment::Unknown,
    }
}

fn finding(own: Finding) -> rows::Finding {
    rows::Finding {
        result: result(own.result).number(),
        disposition: disposition(own.disposition).number(),
        dkim: u8::from(own.dkim),
        spf: u8::from(own.spf),
        domain: own.domain.into_bytes(),
    }
}
