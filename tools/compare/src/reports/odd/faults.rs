//! Every refusal with every later one behind it, in every way to come by it.

use super::{plain, put, put_author, put_domain, put_set, row, Named};
use crate::beside::Member;
use crate::histories::history::{forged, Act};
use crate::reports::day::Day;

/// Something that a report is refused for.
type Fault = fn(&mut Day);

const NEVER_CLEARED: &[Fault] = &[
    |day| day.history.forge(forged(0, b"example.com", 11)),
    |day| {
        let acts = &mut day.history.acts;
        acts.retain(|act| matches!(act, Act::Write { .. }));
    },
];
const NO_COUNT: &[Fault] = &[|day| without_counts(day, 3), |day| without_counts(day, 0)];
const NUMBERS_OR_SETS: &[Fault] = &[
    |day| {
        let mut own = row(1);
        own.seen.author = 1;
        put(day, &[row(1), own]);
    },
    |day| {
        let mut own = row(1);
        own.seen.set = 1;
        put(day, &[own, row(1)]);
    },
    |day| day.beside = 1,
    |day| {
        put_set(
            day,
            &[Member {
                kind: 2,
                ..Member::dkim(b"", b"")
            }],
        )
    },
    |day| {
        put_set(
            day,
            &[Member {
                outcome: 3,
                ..Member::spf(b"d")
            }],
        )
    },
    |day| put_set(day, &[Member::spf(b""), Member::spf(b"")]),
    |day| put_set(day, &vec![Member::dkim(b"s", b"d"); 17]),
];
const TEXTS: &[Fault] = &[
    |day| day.reporter.organization.clear(),
    |day| day.reporter.email.clear(),
    |day| day.reporter.organization = vec![b'a'; 4097],
    |day| day.reporter.email.push(31),
    |day| day.reporter.contact = b"\n".to_vec(),
];
const DOMAINS_ID_OR_TIMES: &[Fault] = &[
    |day| put_domain(day, b"a b"),
    |day| day.reporter.id.clear(),
    |day| day.reporter.begin = u64::MAX,
    |day| put_author(day, b"a..b"),
    |day| put_set(day, &[Member::dkim(b"s", b"")]),
    |day| put_set(day, &[Member::dkim(b"", b"d")]),
    |day| put_set(day, &[Member::spf(b"a b")]),
];

/// In their order, 10 apart, which comes with the memory that is lent.
const FAULTS: [&[Fault]; 5] = [
    NEVER_CLEARED,
    NO_COUNT,
    NUMBERS_OR_SETS,
    TEXTS,
    DOMAINS_ID_OR_TIMES,
];

/// Each way of each refusal alone, and with each way of each later one; then every
/// selection of refusals. What comes later may be undone by what comes before it.
pub fn days() -> Vec<Named> {
    let mut days = Vec::new();
    for (number, ways) in FAULTS.iter().enumerate() {
        for (way, fault) in ways.iter().enumerate() {
            days.push((format!("fault {number}.{way}"), with(&[*fault])));
            for later in FAULTS.iter().skip(number + 1).copied().flatten() {
                let name = format!("fault {number}.{way} before another");
                days.push((name, with(&[*later, *fault])));
            }
        }
    }
    for selected in 0_u32..32 {
        let own = FAULTS.iter().enumerate().rev();
        let own = own.filter(|(number, _)| selected >> number & 1 != 0);
        let faults: Vec<Fault> = own.filter_map(|(_, ways)| ways.first().copied()).collect();
        days.push((format!("faults {selected:05b}"), with(&faults)));
    }
    days
}

/// Lends so many rows, which nobody writes.
fn without_counts(day: &mut Day, lent: usize) {
    let acts = &mut day.history.acts;
    acts.retain(|act| !matches!(act, Act::Write { .. }));
    day.history.rows = vec![row(0); lent];
}

fn with(faults: &[Fault]) -> Day {
    let mut day = plain();
    for fault in faults {
        fault(&mut day);
    }
    day
}
