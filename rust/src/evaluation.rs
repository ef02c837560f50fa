//! One message from its opening to its verdict.

use crate::answer::Answer;
use crate::calls;
use crate::name::Name;
use crate::numbers::{Alignment, AppliedPolicy, Disposition, DmarcResult};
use crate::numbers::{Existence, Kind, Outcome};
use crate::raw::{self, Called, Given, State};
use crate::refusal::Refusal;
use crate::rows::Finding;
use crate::verdict::Verdict;
use crate::IDENTIFIERS;

/// An evaluation between two calls: a value that can be copied and kept.
#[derive(Clone, Copy, Debug, PartialEq, Eq)]
pub struct Evaluation {
    state: State,
}

/// The next step.
#[allow(clippy::large_enum_variant)] // A name is a plain value.
#[derive(Clone, Debug, PartialEq, Eq)]
pub enum Step {
    /// Look up the TXT records of this name.
    Ask(Name),
    /// There is nothing left to ask.
    Verdict(Verdict),
}

impl Evaluation {
    /// Nothing is opened yet: every call but an opening is refused.
    pub const EMPTY: Evaluation = Evaluation {
        state: State::ZEROS,
    };

    /// Opens an evaluation of a message: its author domain, whether that exists,
    /// and whether other analysis supports rejecting the message. Refused 1.
    pub fn open(
        author: impl AsRef<[u8]>,
        existence: Existence,
        supported: bool,
    ) -> Result<Evaluation, Refusal> {
        Evaluation::open_by_numbers(author, existence as u8, u8::from(supported))
    }

    /// Opens one by numbers, of which some are not listed. Refused 1, 3.
    pub fn open_by_numbers(
        author: impl AsRef<[u8]>,
        existence: u8,
        support: u8,
    ) -> Result<Evaluation, Refusal> {
        let mut evaluation = Evaluation::EMPTY;
        evaluation.open_over(author, existence, support)?;
        Ok(evaluation)
    }

    /// Opens another message over this one, by numbers; refused it stays as it
    /// was. Refused 1, 3.
    pub fn open_over(
        &mut self,
        author: impl AsRef<[u8]>,
        existence: u8,
        support: u8,
    ) -> Result<(), Refusal> {
        let called = calls::open(self.state, author.as_ref(), existence, support);
        self.accept(called)
    }

    /// Adds an identifier: SPF's or DKIM's outcome for a domain. Refused 17, 4, 2.
    pub fn add(
        &mut self,
        kind: Kind,
        outcome: Outcome,
        domain: impl AsRef<[u8]>,
    ) -> Result<(), Refusal> {
        self.add_by_numbers(kind as u8, outcome as u8, domain)
    }

    /// Adds one by numbers, of which some are not listed. Refused 17, 3, 4, 2.
    pub fn add_by_numbers(
        &mut self,
        kind: u8,
        outcome: u8,
        domain: impl AsRef<[u8]>,
    ) -> Result<(), Refusal> {
        let called = calls::add(self.state, kind, outcome, domain.as_ref());
        self.accept(called)
    }

    /// The next step. The same name is given again until it is answered. Refused 7.
    #[allow(clippy::should_implement_trait)] // It may be refused, and never ends.
    pub fn next(&mut self) -> Result<Step, Refusal> {
        let called = calls::next(self.state);
        self.state = called.state;
        let given = called.given;
        match given.kind {
            raw::ASK => Ok(Step::Ask(self.name(given.walk, given.place))),
            _ => self.verdict(&given).map(Step::Verdict),
        }
    }

    /// Hands in the answer for the name now asked. The scratch is lent for the
    /// texts; [`SCRATCH_OCTETS`](crate::SCRATCH_OCTETS) are enough. Refused 5, 6,
    /// 10. Refused 6, the name still stands: hand in [`Answer::Error`].
    pub fn answer(
        &mut self,
        name: impl AsRef<[u8]>,
        answer: Answer,
        scratch: &mut [u8],
    ) -> Result<(), Refusal> {
        let (status, bytes) = answer.numbered();
        let called = calls::answer(self.state, name.as_ref(), status, bytes, scratch);
        self.accept(called)
    }

    /// The verdict, once there is one. Refused 7.
    pub fn result(&self) -> Result<Verdict, Refusal> {
        self.verdict(&calls::result(self.state))
    }

    /// Writes the Identity-Alignment field of the verdict (RFC 9991), CR LF
    /// included, and gives its length. Refused 7, 9, 10.
    pub fn field(&self, out: &mut [u8]) -> Result<usize, Refusal> {
        let given = calls::field(self.state, out);
        Refusal::unless_accepted(given.kind, given.refusal).map(|()| given.length)
    }

    /// What is entered in a day's list, once there is a verdict. Refused 7.
    pub fn finding(&self) -> Result<Finding, Refusal> {
        let found = calls::finding(self.state);
        match found.kind {
            raw::VERDICT => Ok(Finding::of(found.finding, self.domain(found.begin))),
            _ => Err(found.refusal.into()),
        }
    }

    /// The state, as a program in C has it.
    pub fn raw(&self) -> &State {
        &self.state
    }

    /// An evaluation of a state, whatever octets that has.
    pub fn from_raw(state: State) -> Evaluation {
        Evaluation { state }
    }

    /// Goes on with what a call gives, which is what it was where it is refused.
    fn accept(&mut self, called: Called) -> Result<(), Refusal> {
        self.state = called.state;
        Refusal::unless_accepted(called.given.kind, called.given.refusal)
    }

    fn name(&self, walk: usize, place: usize) -> Name {
        Name::of(|out| calls::name(self.state, walk, place, out))
    }

    fn domain(&self, begin: usize) -> String {
        Name::of(|out| calls::domain(self.state, begin, out)).to_string()
    }

    fn verdict(&self, given: &Given) -> Result<Verdict, Refusal> {
        if given.kind != raw::VERDICT {
            return Err(given.refusal.into());
        }
        let verdict = &given.verdict;
        let identifiers = 0..self.state.identifiers.min(IDENTIFIERS);
        Ok(Verdict {
            result: DmarcResult::of(verdict.result),
            policy: AppliedPolicy::of(verdict.policy),
            disposition: Disposition::of(verdict.disposition),
            domain: self.domain(verdict.begin),
            alignments: identifiers
                .map(|index| Alignment::at(verdict.alignments, index))
                .collect(),
            asked: verdict.count,
        })
    }
}

impl Default for Evaluation {
    fn default() -> Evaluation {
        Evaluation::EMPTY
    }
}
