//! One history by both.

use super::code::{given_row, make, read_row, Code};
use super::history::{read_list, shown, Act, Call, History};
use super::sums::Sums;
use super::tally::Tally;
use evaluator::lists::Lists;
use evaluator::refusal::Refusal;
use evaluator::rows::{self, Row};
use records::code::accepted;
use waslidhaj::raw::{self, List, ListChanged};

type Answer = Result<(), Refusal>;

/// What a history leaves: the list and the rows, as the code has them and as the second
/// evaluator does.
pub struct Left {
    pub list: List,
    pub rows: Vec<raw::Row>,
    pub expected_list: rows::DayList,
    pub expected_rows: Vec<Row>,
}

/// Checks the code on one history; the error has the history up to the fault.
pub fn check(code: &impl Code, history: &History, tally: &mut Tally) -> Result<Left, String> {
    let fault = |acts: usize| {
        move |what: String| format!("{what}\n-- the history\n{}", history.lines(acts))
    };
    let mut run = Run::new(code, history);
    run.begins_with_zeros().map_err(fault(0))?;
    for (before, act) in history.acts.iter().enumerate() {
        run.step(act, tally).map_err(fault(before + 1))?;
    }
    tally.histories += 1;
    Ok(run.left)
}

/// The code and the second evaluator at the same place of a history.
struct Run<'c, C> {
    code: &'c C,
    history: &'c History,
    left: Left,
    /// Nothing where others write the rows.
    sums: Option<Sums>,
}

impl<'c, C: Code> Run<'c, C> {
    fn new(code: &'c C, history: &'c History) -> Run<'c, C> {
        Run {
            code,
            history,
            left: Left {
                list: code.new_list(),
                rows: history.rows.iter().map(given_row).collect(),
                expected_list: rows::DayList::default(),
                expected_rows: history.rows.clone(),
            },
            sums: (!history.others_write()).then(Sums::default),
        }
    }

    fn step(&mut self, act: &Act, tally: &mut Tally) -> Result<(), String> {
        match act {
            Act::Call(call) => self.call(call, tally),
            Act::Write { at, row } => {
                self.write(*at, row);
                Ok(())
            }
            Act::Forge(list) => {
                self.left.list = **list;
                self.left.expected_list = read_list(list);
                Ok(())
            }
        }
    }

    fn write(&mut self, at: usize, row: &Row) {
        if let Some(lent) = self.left.rows.get_mut(at) {
            *lent = given_row(row);
        }
        if let Some(lent) = self.left.expected_rows.get_mut(at) {
            *lent = *row;
        }
    }

    fn call(&mut self, call: &Call, tally: &mut Tally) -> Result<(), String> {
        let (list, rows) = (self.left.list, &mut self.left.rows);
        let changed = make(self.code, (self.history, call), list, rows)?;
        let answer = accepted(changed.refusal);
        let expected = self.expected(call);
        same_answer(answer, expected)?;
        self.same_list(call, &changed)?;
        self.left.list = changed.list;
        self.same_domain()?;
        let given: Vec<Row> = self.left.rows.iter().map(read_row).collect();
        self.same_rows(&given)?;
        self.check_sums(call, answer, &given)?;
        tally.add(call, answer);
        Ok(())
    }

    fn expected(&mut self, call: &Call) -> Answer {
        let rows = &mut self.left.expected_rows;
        match call {
            Call::Clear(domain) => self.left.expected_list.clear(domain, rows),
            Call::Enter { entry, beside } => {
                let beside = self.history.beside.get(*beside);
                let lists = beside.map_or(Lists::default(), |own| own.given());
                self.left.expected_list.enter(entry, lists, rows)
            }
        }
    }

    /// A refused call, and one that enters, leaves the list as it is, to the octet; one
    /// that clears gives a flag of 1 and a length within the domain.
    fn same_list(&self, call: &Call, changed: &ListChanged) -> Result<(), String> {
        let (list, before) = (&changed.list, &self.left.list);
        let clears = matches!(call, Call::Clear(_)) && changed.refusal.number == 0;
        let whole = list.cleared == 1 && usize::from(list.length) <= list.domain.len();
        match (clears, whole, list == before) {
            (true, true, _) | (false, _, true) => Ok(()),
            (true, false, _) => Err(format!(
                "a list cleared={} of {} octets",
                list.cleared, list.length
            )),
            (false, _, false) => Err("the list was changed".to_string()),
        }
    }

    /// A list that was never cleared has all octets 0.
    fn begins_with_zeros(&self) -> Result<(), String> {
        let list = &self.left.list;
        let octets = list.domain.iter().any(|octet| *octet != 0);
        match octets || list.cleared != 0 || list.length != 0 {
            true => Err(format!("a new list is not of zeros: {list:?}")),
            false => Ok(()),
        }
    }

    fn same_domain(&self) -> Result<(), String> {
        let (given, expected) = (read_list(&self.left.list), &self.left.expected_list);
        match given == *expected {
            true => Ok(()),
            false => Err(format!(
                "the lists differ\n-- the proved code\n{}\n-- the reference\n{}",
                named(given.domain()),
                named(expected.domain())
            )),
        }
    }

    fn same_rows(&self, given: &[Row]) -> Result<(), String> {
        let mut pairs = given.iter().zip(&self.left.expected_rows);
        let Some(at) = pairs.position(|(given, expected)| given != expected) else {
            return Ok(());
        };
        let row = |rows: &[Row]| rows.get(at).map(shown).unwrap_or_default();
        Err(format!(
            "row {at} differs\n-- the proved code\n{}\n-- the reference\n{}",
            row(given),
            row(&self.left.expected_rows)
        ))
    }

    /// The sums, from the proved calls and the proved rows alone.
    fn check_sums(&mut self, call: &Call, answer: Answer, given: &[Row]) -> Result<(), String> {
        let Some(sums) = &mut self.sums else {
            return Ok(());
        };
        if answer.is_ok() {
            sums.note(call);
        }
        sums.check(given)
    }
}

fn same_answer(given: Answer, expected: Answer) -> Result<(), String> {
    match given == expected {
        true => Ok(()),
        false => Err(format!(
            "the answers differ\n-- the proved code\n{}\n-- the reference\n{}",
            said(given),
            said(expected)
        )),
    }
}

fn said(answer: Answer) -> String {
    answer.map_or_else(|refusal| refusal.to_string(), |()| "accepted".to_string())
}

fn named(domain: Option<&[u8]>) -> String {
    match domain {
        Some(domain) => format!("cleared for \"{}\"", domain.escape_ascii()),
        None => "never cleared".to_string(),
    }
}
