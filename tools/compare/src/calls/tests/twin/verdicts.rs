//! What is given at the verdict, with a rule broken.

use super::Twin;
use super::Wrong::*;
use evaluator::book::{Book, Step, SCRATCH_OCTETS};
use evaluator::domain::without_dot;
use evaluator::policy::Policy;
use evaluator::refusal::Refusal;
use evaluator::report::lend;
use evaluator::rows::Finding;
use evaluator::txt::Answer;
use evaluator::verdict::{AppliedPolicy, Disposition, DmarcResult, Verdict};

impl Twin {
    /// A verdict with something wrong in it.
    pub fn spoilt(&self, mut verdict: Verdict) -> Verdict {
        let applied = !verdict.domain.is_empty();
        match self.wrong {
            RepeatedAskCountsTwice => verdict.asked += self.repeats,
            DomainIsTheAuthors if applied => {
                verdict.domain = without_dot(&self.author).to_ascii_lowercase();
            }
            AlignmentsReversed => verdict.alignments.reverse(),
            PolicyWithoutSupport if verdict.disposition == Disposition::Quarantine => {
                verdict.policy = AppliedPolicy::Known(Policy::Quarantine);
            }
            _ => {}
        }
        verdict
    }

    pub fn result(&self) -> Result<Verdict, Refusal> {
        let book = match self.wrong {
            ResultBeforeTheVerdict => ended(&self.book),
            ResultOnlyAfterTheStep if !self.told => return Err(Refusal::new(7, 0)),
            _ => self.book.clone(),
        };
        book.result().map(|verdict| self.spoilt(verdict))
    }

    pub fn field(&self, lent: &mut [u8]) -> Result<usize, Refusal> {
        let verdict = self.book.result();
        let result = verdict.as_ref().map(|verdict| verdict.result);
        let judged = matches!(result, Ok(DmarcResult::Pass | DmarcResult::Fail));
        let temperror = result == Ok(DmarcResult::Temperror);
        let none = self.added.is_empty();
        let mut out = [0; 64];
        let needed = self.book.field(&mut out);
        let text = out.get(..needed.unwrap_or(0)).unwrap_or_default();
        match (self.wrong, needed) {
            (FieldWithoutIdentifiers, _) if judged && none => {
                lend(b"Identity-Alignment: none\r\n", lent)
            }
            (FieldOfATemperror, _) if temperror && !none => {
                lend(b"Identity-Alignment: none\r\n", lent)
            }
            (FieldNeedsOneMore, Ok(needed)) if lent.len() <= needed => {
                Err(Refusal::new(10, needed + 1))
            }
            (FieldCutOff, Ok(needed)) if lent.len() < needed => {
                lent.copy_from_slice(text.get(..lent.len()).unwrap_or_default());
                Err(Refusal::new(10, needed))
            }
            (SpfBeforeDkim, Ok(31)) => lend(b"Identity-Alignment: spf, dkim\r\n", lent),
            _ => self.book.field(lent),
        }
    }

    pub fn finding(&self) -> Result<Finding, Refusal> {
        let book = match self.wrong {
            FindingBeforeTheVerdict => ended(&self.book),
            _ => self.book.clone(),
        };
        let mut finding = book.finding()?;
        match self.wrong {
            FindingOfTheOtherKind => {
                (finding.dkim, finding.spf) = (finding.spf, finding.dkim);
            }
            FindingWithoutItsDomain => finding.domain.clear(),
            _ => {}
        }
        Ok(finding)
    }
}

/// A book that went on to its verdict, where no name has any records.
fn ended(book: &Book) -> Book {
    let mut book = book.clone();
    let mut scratch = [0; SCRATCH_OCTETS];
    while let Ok(Step::Ask(asked)) = book.next_step() {
        let answered = book.answer(&asked.name, Answer::NONE, &mut scratch);
        if answered.is_err() {
            break;
        }
    }
    book
}
