//! Ask 9 of document 02 and readings 153 to 157: the refusals of the report, in their
//! order: 27, 18, 28, 19, 11, 10.

use crate::beside::{authors, member};
use crate::case::refusal;
use crate::day::{day, handed, row, Day};
use crate::octets::record;
use evaluator::aggregate::Reporter;
use evaluator::rows::DayList;

/// The same day with other texts of the reporter.
fn reported(reporter: Reporter<'static>) -> Day {
    Day { reporter, ..day() }
}

/// Something wrong with a day.
type Fault = fn(Day) -> Day;

const NEVER_CLEARED: Fault = |day| Day {
    list: DayList::default(),
    ..day
};
const NO_COUNT: Fault = |mut day| {
    for row in &mut day.rows {
        row.count = 0;
    }
    day
};
const PAST_ITS_LIST: Fault = |mut day| {
    day.rows[0].seen.author = 1;
    day
};
const EMPTY_EMAIL: Fault = |mut day| {
    day.reporter.email = b"";
    day
};
const BAD_ID: Fault = |mut day| {
    day.reporter.id = b"r-7";
    day
};

/// Each refusal with every later fault behind it; with no room at all the report that
/// is not refused otherwise is refused 10.
#[test]
fn point_157_the_order() {
    let faults: [(u8, Fault); 5] = [
        (27, NEVER_CLEARED),
        (18, NO_COUNT),
        (28, PAST_ITS_LIST),
        (19, EMPTY_EMAIL),
        (11, BAD_ID),
    ];
    for behind in 0_u32..32 {
        let has = |index: usize| behind >> index & 1 != 0;
        let mut faulty = day();
        for (_, fault) in (0..)
            .zip(faults)
            .filter(|(index, _)| has(*index))
            .map(|(_, own)| own)
        {
            faulty = fault(faulty);
        }
        let first = (0..faults.len()).find(|index| has(*index));
        match first {
            Some(index) => assert_eq!(faulty.refused(), refusal(faults[index].0, 0)),
            None => assert_eq!(faulty.lent(0).0, Err(refusal(10, 879))),
        }
    }
}

#[test]
fn refused_27() {
    assert_eq!(NEVER_CLEARED(day()).refused(), refusal(27, 0));
    // Whatever its domain is.
    let mut octets = [0; 253];
    octets[..11].copy_from_slice(b"example.com");
    let never = Day {
        list: DayList::handed(0, &octets, 11),
        ..day()
    };
    assert_eq!(never.refused(), refusal(27, 0));
}

#[test]
fn refused_18() {
    assert_eq!(NO_COUNT(day()).refused(), refusal(18, 0));
    let with = |rows| Day { rows, ..day() }.refused();
    assert_eq!(with(vec![]), refusal(18, 0));
    let mut past = vec![row(0); 256];
    past.push(row(1));
    assert_eq!(with(past.clone()), refusal(18, 0));
    past[255].count = 1;
    assert!(Day {
        rows: past,
        ..day()
    }
    .text()
    .contains("<count>1</count>"));
}

/// A day with a row of these numbers behind the first one.
fn numbered(author: u32, set: u32, count: u32) -> Day {
    let mut day = day();
    let mut second = row(count);
    (second.seen.author, second.seen.set) = (author, set);
    day.rows.push(second);
    day
}

#[test]
fn refused_28_past_a_list() {
    for (author, set) in [
        (1, 0),
        (0, 1),
        (4_294_967_295, 0),
        (0, 4_294_967_295),
        (9, 9),
    ] {
        assert_eq!(numbered(author, set, 1).refused(), refusal(28, 0));
        // A row without a count is not looked at.
        assert_eq!(numbered(author, set, 0).text(), day().text());
    }
    let cut = Day {
        authors: b"AU\0\x0cexample.com".to_vec(),
        ..day()
    };
    assert_eq!(cut.refused(), refusal(28, 0));
    let empty = Day {
        sets: Vec::new(),
        ..day()
    };
    assert_eq!(empty.refused(), refusal(28, 0));
}

#[test]
fn refused_28_by_a_set() {
    let dkim = |count: usize| member(1, 0, "s", "d").repeat(count);
    let spf = member(0, 0, "", "d");
    let bodies = [
        member(2, 0, "s", "d"),
        member(0, 3, "", "d"),
        record(b"ID", b""),
        record(b"ID", b"\x01"),
        b"ID\0".to_vec(),
        b"ID\0\x05\x01\x01\x00d".to_vec(),
        dkim(17),
        [spf.clone(), spf.clone()].concat(),
        [dkim(16), spf].concat(),
        // Reading 221: a bad domain before it.
        [member(1, 0, "", "a b"), member(1, 7, "s", "d")].concat(),
    ];
    for body in bodies {
        let refused = day().with_set_body(&body).refused();
        assert_eq!(refused, refusal(28, 0), "{}", body.escape_ascii());
    }
    let sixteen = day().with_set_body(&dkim(16));
    assert_eq!(sixteen.text().matches("<dkim><domain>").count(), 16);
}

/// Reading 155: "an unused bad set is not judged".
#[test]
fn point_155_unused_places() {
    let mut unused = day();
    unused.authors.extend(record(b"AU", b"a b"));
    unused.sets.extend(record(b"ST", &member(9, 9, "s", "d")));
    unused.sets.extend(record(b"ST", &member(1, 1, "", "")));
    assert_eq!(unused.text(), day().text());
    unused.rows.push(row(1));
    unused.rows[1].seen.set = 1;
    assert_eq!(unused.refused(), refusal(28, 0));
    unused.rows[1].seen.set = 2;
    assert_eq!(unused.refused(), refusal(11, 0));
    (unused.rows[1].seen.set, unused.rows[1].seen.author) = (0, 1);
    assert_eq!(unused.refused(), refusal(11, 0));
}

#[test]
fn refused_19() {
    let long: &'static [u8] = vec![b'a'; 4097].leak();
    let own = day().reporter;
    let mut bad = vec![
        Reporter {
            organization: b"",
            ..own
        },
        Reporter { email: b"", ..own },
    ];
    let octets: [&'static [u8]; 7] = [long, b"a\x1fb", b"\x7f", b"a\n", b"\t", b"\0", b"\xc3\xa9"];
    for text in octets {
        bad.extend([
            Reporter {
                organization: text,
                ..own
            },
            Reporter { email: text, ..own },
            Reporter {
                contact: text,
                ..own
            },
        ]);
    }
    for reporter in bad {
        assert_eq!(reported(reporter).refused(), refusal(19, 0), "{reporter:?}");
    }
    let most: &'static [u8] = vec![b'a'; 4096].leak();
    let fits = Reporter {
        organization: most,
        email: b" ",
        contact: b"~",
        ..own
    };
    assert!(reported(fits)
        .text()
        .contains("a</org_name><email> </email>"));
}

/// Reading 153: the id is no text of 19's.
#[test]
fn point_153_the_id() {
    let long: &'static [u8] = vec![b'a'; 5000].leak();
    let more: &'static [u8] = vec![b'a'; 65].leak();
    let ids: [&'static [u8]; 7] = [b"", b"r 7", b"r.7", b"r7\n", b"\xff", more, long];
    for id in ids {
        let own = Reporter {
            id,
            ..day().reporter
        };
        assert_eq!(reported(own).refused(), refusal(11, 0));
        let both = Reporter {
            organization: b"",
            ..own
        };
        assert_eq!(reported(both).refused(), refusal(19, 0));
    }
}

#[test]
fn refused_11_by_times() {
    let at = |begin, end| {
        reported(Reporter {
            begin,
            end,
            ..day().reporter
        })
    };
    assert_eq!(at(1, 0).refused(), refusal(11, 0));
    assert_eq!(at(u64::MAX, u64::MAX - 1).refused(), refusal(11, 0));
    assert!(at(0, 0).text().contains("<begin>0</begin><end>0</end>"));
}

/// Domains that break the rule.
fn bad_domains() -> Vec<String> {
    let label = "x".repeat(63);
    let mut bad: Vec<String> = ["", ".", "..", "a..b", ".a", "a..", "a b", "a/b", "é"]
        .map(str::to_string)
        .to_vec();
    bad.push(format!("{label}x.com"));
    bad.push(format!("{label}.{label}.{label}.{}", &label[1..]));
    bad
}

#[test]
fn point_156_bad_domains_and_selectors() {
    for bad in bad_domains() {
        let author = Day {
            authors: authors(&[&bad]),
            ..day()
        };
        assert_eq!(author.refused(), refusal(11, 0), "{bad}");
        let refused = |members: &[Vec<u8>]| day().with_set(members).refused();
        let good = member(1, 1, "s", "d");
        assert_eq!(refused(&[member(1, 0, "s", &bad)]), refusal(11, 0), "{bad}");
        assert_eq!(
            refused(&[good.clone(), member(0, 1, "", &bad)]),
            refusal(11, 0)
        );
        assert_eq!(refused(&[good, member(1, 1, &bad, "d")]), refusal(11, 0));
    }
}

#[test]
fn point_156_spf_s_selector_is_not_judged() {
    let text = day().with_set(&[member(0, 1, "", "d")]).text();
    for bad in bad_domains() {
        let other = day().with_set(&[member(0, 1, &bad, "d")]);
        assert_eq!(other.text(), text, "{bad}");
    }
}

/// "11: the list's own domain (a list is in the caller's hands)". Reading 134: it is
/// taken when the list is cleared, and loses its dot there alone.
#[test]
fn refused_11_by_the_lists_domain() {
    let mut bad = bad_domains();
    bad.retain(|bad| bad.len() <= 253);
    bad.extend(["example.com.".to_string(), "a.".to_string()]);
    for bad in &bad {
        let forged = Day {
            list: handed(bad.as_bytes()),
            ..day()
        };
        assert_eq!(forged.refused(), refusal(11, 0), "{bad}");
    }
    let mut octets = [b'x'; 253];
    let with = |octets: &[u8; 253], length| Day {
        list: DayList::handed(7, octets, length),
        ..day()
    };
    assert_eq!(with(&octets, 64).refused(), refusal(11, 0));
    assert_eq!(with(&octets, 65_535).refused(), refusal(11, 0));
    for at in [63, 127, 191] {
        octets[at] = b'.';
    }
    assert!(with(&octets, 65_535).text().contains(".xxx"));
}
