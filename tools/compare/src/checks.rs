//! The proved calls on address checks that no call gave, as `states` has it of
//! evaluations. A start over such a check begins afresh.

mod check;
mod code;
#[cfg(test)]
mod tests;

use crate::addresses::{interface, Checks, Run};
use crate::states::check_all;
use crate::states::hand::Hand;
use crate::states::made::{Fields, Made, Real};
use crate::states::tally::Tally;
use check::every_call;
use code::Interface;
use evaluator::address::Address;
use sheets::programs::checks::{random, Call};
use sheets::programs::lent::FILL;
use waslidhaj::raw::Check;

pub use code::Proved;

/// What must come.
const WANTED: [&str; 9] = [
    "start accepted",
    "start refused",
    "next ask",
    "next verdict",
    "next refused",
    "answer accepted",
    "answer refused",
    "result verdict",
    "result refused",
];

/// Compares on so many checks; gives a line of what was seen, or the first fault.
/// The calls go on from a check.
pub fn compare<C: Checks>(
    interface: &impl Interface,
    calls: impl Fn(Check) -> C,
    count: u64,
    seed: u64,
) -> Result<String, String> {
    let mut lists = random(seed);
    let check = |check: Check, hand: &mut Hand| {
        hand.check(interface, check, every_call)?;
        let list = lists.next().unwrap_or_default();
        started_over(calls(check), &list)
    };
    check_all(
        Tally::new("checks", &WANTED),
        real(seed),
        count,
        seed,
        check,
    )
}

/// The calls of a check from its first accepted start on, as on a book where nothing
/// was started before.
fn started_over(calls: impl Checks, list: &[Call]) -> Result<(), String> {
    let mut run = Run::new(calls);
    let accepted = |call: &Call| match call {
        Call::Start(given) => Address::read(&given.policy, &given.entry).is_ok(),
        _ => false,
    };
    let begin = list.iter().position(accepted).unwrap_or(list.len());
    for call in list.iter().skip(begin) {
        run.step(call)?;
    }
    Ok(())
}

/// Running checks.
fn real(seed: u64) -> Real<Check> {
    let mut calls = random(seed).flatten();
    Real::new(move |check| {
        let call = calls.next().ok_or("no calls are left")?;
        let mut lent = vec![FILL; call.lent()];
        Ok(interface::make(check, &call, 2, &mut lent)?.0)
    })
}

impl Made for Check {
    const ZEROS: Check = Check::ZEROS;
    const FLAGS: usize = 9;

    fn fields(&mut self) -> Fields<'_> {
        Fields {
            flags: vec![
                &mut self.started,
                &mut self.asked,
                &mut self.confirmed,
                &mut self.point_kind,
                &mut self.found,
            ],
            domains: &mut self.domains,
            numbers: &mut self.numbers,
            kept: &mut self.kept,
            stored: &mut [],
            words: vec![
                &mut self.count,
                &mut self.organization,
                &mut self.record_begin,
                &mut self.record_settings,
                &mut self.target_begin,
                &mut self.target_wider,
                &mut self.more,
                &mut self.instead_begin,
                &mut self.instead_length,
            ],
        }
    }
}
