//! Whether a report address outside the policy domain agreed.

use crate::answer::Answer;
use crate::calls;
use crate::name::Name;
use crate::raw::{self, Check, CheckCalled, CheckGiven};
use crate::refusal::Refusal;

/// The check of one address of `rua` (RFC 9990, section 4) between two calls: a
/// value that can be copied and kept. It goes as a message does: start it, then take
/// the [`next`](AddressCheck::next) step and hand in an
/// [`answer`](AddressCheck::answer) for the name that it asks for, in turn, until it
/// gives the outcome.
///
/// The host that is checked follows the last `@` of the entry. A mailer may find
/// another one in an entry with a second `@`, a `?`, a `#` or a `%`: send to such an
/// entry only if yours finds the host that was checked.
///
/// ```
/// use waslidhaj::{records, AddressCheck, AddressStep, Agreement, Answer};
/// use waslidhaj::SCRATCH_OCTETS;
///
/// /// Stands for a lookup of TXT records: the RDATA of each, or no answer.
/// fn lookup(name: &str) -> Result<Vec<&'static [u8]>, ()> {
///     Ok(match name {
///         "blue.example.com._report._dmarc.red.example.net" => {
///             vec![b"\x30v=DMARC1; rua=mailto:b@red.example.net,https:red"]
///         }
///         _ => vec![],
///     })
/// }
///
/// fn main() -> Result<(), waslidhaj::Refusal> {
///     let (policy, entry) = ("blue.example.com", "mailto:a@red.example.net");
///     let mut check = AddressCheck::start(policy, entry)?;
///     let mut scratch = [0; SCRATCH_OCTETS];
///     let outcome = loop {
///         let name = match check.next()? {
///             AddressStep::Ask(name) => name,
///             AddressStep::Outcome(outcome) => break outcome,
///         };
///         let bytes = lookup(name.as_str()).map(|rdatas| records(&rdatas));
///         let answer = match &bytes {
///             Ok(Some(bytes)) => Answer::Records(bytes),
///             // A lookup that failed or timed out, and what cannot be written.
///             _ => Answer::Error,
///         };
///         match check.answer(name, answer, &mut scratch) {
///             // Over a limit, or unreadable: its name still stands.
///             Err(refusal) if refusal.number == 6 => {
///                 check.answer(name, Answer::Error, &mut scratch)?;
///             }
///             answered => answered?,
///         }
///     };
///     assert_eq!(outcome.asked, 7);
///     assert!(matches!(outcome.agreement, Agreement::Replaced { .. }));
///     // Of the list that takes its place, those entries alone that can be checked.
///     let list = outcome.agreement.instead(&scratch).unwrap_or_default();
///     let entries = list.split(|octet| *octet == b',');
///     let used = entries.filter(|entry| AddressCheck::start(policy, entry).is_ok());
///     assert!(used.eq([b"mailto:b@red.example.net"]));
///     Ok(())
/// }
/// ```
#[derive(Clone, Copy, Debug, PartialEq, Eq)]
pub struct AddressCheck {
    check: Check,
}

/// The next step of a check.
#[allow(clippy::large_enum_variant)] // A name is a plain value.
#[derive(Clone, Debug, PartialEq, Eq)]
pub enum AddressStep {
    /// Look up the TXT records of this name.
    Ask(Name),
    /// There is nothing left to ask.
    Outcome(AddressOutcome),
}

/// What a check comes to.
#[derive(Clone, Copy, Debug, PartialEq, Eq)]
pub struct AddressOutcome {
    /// Whether the address agreed.
    pub agreement: Agreement,
    /// How many names were asked.
    pub asked: usize,
}

/// Whether an address agreed to receive reports.
#[derive(Clone, Copy, Debug, PartialEq, Eq, Hash)]
pub enum Agreement {
    /// A lookup failed: do not send, ask again later.
    NotKnown,
    /// It did not agree: do not send.
    No,
    /// It is the policy domain's own, or of its organizational domain.
    Inside,
    /// It agreed.
    Confirmed,
    /// It agreed to another text alone, not to the entry itself: [`Agreement::instead`].
    Replaced {
        /// Where that begins in the scratch, as the last answer left it.
        begin: usize,
        /// How many octets it has.
        length: usize,
    },
}

impl AddressCheck {
    /// Nothing is started yet: every call but a start is refused.
    pub const EMPTY: AddressCheck = AddressCheck {
        check: Check::ZEROS,
    };

    /// Starts the check of a rua entry for a policy domain. Refused 11 (a bad policy
    /// domain), 23 (an entry with a comma, or no valid `mailto:` with a domain after
    /// its last `@`).
    pub fn start(
        policy: impl AsRef<[u8]>,
        entry: impl AsRef<[u8]>,
    ) -> Result<AddressCheck, Refusal> {
        let mut check = AddressCheck::EMPTY;
        check.start_over(policy, entry)?;
        Ok(check)
    }

    /// Starts another check over this one; refused it stays as it was, with the
    /// outcome that it may have. Refused 11, 23.
    pub fn start_over(
        &mut self,
        policy: impl AsRef<[u8]>,
        entry: impl AsRef<[u8]>,
    ) -> Result<(), Refusal> {
        let called = calls::check_start(self.check, policy.as_ref(), entry.as_ref());
        self.accept(called)
    }

    /// The next step. The same name is given again until it is answered. Refused 7.
    #[allow(clippy::should_implement_trait)] // It may be refused, and never ends.
    pub fn next(&mut self) -> Result<AddressStep, Refusal> {
        let called = calls::check_next(self.check);
        self.check = called.check;
        let given = called.given;
        match given.kind {
            raw::ASK => Ok(AddressStep::Ask(self.name(given.walk, given.place))),
            _ => outcome(&given).map(AddressStep::Outcome),
        }
    }

    /// Hands in the answer for the name now asked, as
    /// [`Evaluation::answer`](crate::Evaluation::answer) takes one. Refused 5, 6, 10.
    /// Refused 6, the name still stands: hand in [`Answer::Error`].
    pub fn answer(
        &mut self,
        name: impl AsRef<[u8]>,
        answer: Answer,
        scratch: &mut [u8],
    ) -> Result<(), Refusal> {
        let (status, bytes) = answer.numbered();
        let called = calls::check_answer(self.check, name.as_ref(), status, bytes, scratch);
        self.accept(called)
    }

    /// The outcome, once there is one. Refused 7.
    pub fn result(&self) -> Result<AddressOutcome, Refusal> {
        outcome(&calls::check_result(self.check))
    }

    /// The check, as a program in C has it.
    pub fn raw(&self) -> &Check {
        &self.check
    }

    /// A check of these octets, whatever they are.
    pub fn from_raw(check: Check) -> AddressCheck {
        AddressCheck { check }
    }

    /// Goes on with what a call gives, which is what it was where it is refused.
    fn accept(&mut self, called: CheckCalled) -> Result<(), Refusal> {
        self.check = called.check;
        Refusal::unless_accepted(called.given.kind, called.given.refusal)
    }

    fn name(&self, walk: usize, place: usize) -> Name {
        Name::of(|out| calls::check_name(self.check, walk, place, out))
    }
}

impl Default for AddressCheck {
    fn default() -> AddressCheck {
        AddressCheck::EMPTY
    }
}

fn outcome(given: &CheckGiven) -> Result<AddressOutcome, Refusal> {
    match given.kind {
        raw::OUTCOME => Ok(AddressOutcome {
            agreement: Agreement::of(given),
            asked: given.count,
        }),
        _ => Err(given.refusal.into()),
    }
}

impl Agreement {
    /// What the numbers mean; one that is not listed, as any of no outcome, reads as
    /// what settles nothing.
    fn of(given: &CheckGiven) -> Agreement {
        match given.agreement {
            raw::ADDRESS_NO => Agreement::No,
            raw::ADDRESS_INSIDE => Agreement::Inside,
            raw::ADDRESS_CONFIRMED => Agreement::Confirmed,
            raw::ADDRESS_REPLACED => Agreement::Replaced {
                begin: given.begin,
                length: given.length,
            },
            _ => Agreement::NotKnown,
        }
    }

    /// Whether a report may be sent: to the address, or where it is replaced, to what
    /// takes its place alone.
    pub fn may_send(self) -> bool {
        !matches!(self, Agreement::NotKnown | Agreement::No)
    }

    /// The text that takes the address's place, of the scratch as the last answer
    /// left it; nothing where it is not replaced.
    ///
    /// That is a comma list. All hosts in it that were judged are the address's own;
    /// entries that are no `mailto:` with a domain, or have a `!`, were passed over.
    /// Send to those alone that [`AddressCheck::start`] accepts.
    pub fn instead(self, scratch: &[u8]) -> Option<&[u8]> {
        match self {
            Agreement::Replaced { begin, length } => scratch.get(begin..begin.checked_add(length)?),
            _ => None,
        }
    }
}

#[cfg(test)]
mod tests {
    use super::{Agreement, CheckGiven};

    #[test]
    fn a_number_that_is_not_listed() {
        for agreement in 5..=255 {
            let given = CheckGiven {
                agreement,
                ..CheckGiven::default()
            };
            assert_eq!(Agreement::of(&given), Agreement::NotKnown);
        }
    }
}
