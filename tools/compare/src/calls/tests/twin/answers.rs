//! Answers, with a rule broken.

use super::Twin;
use super::Wrong::*;
use evaluator::book::SCRATCH_OCTETS;
use evaluator::domain::without_dot;
use evaluator::refusal::Refusal;
use evaluator::txt::{self, Answer, Status, MOST_RECORDS};
use sheets::programs::calls::AnswerCall;

impl Twin {
    pub fn answer(&mut self, given: &AnswerCall, lent: &mut [u8]) -> Result<(), Refusal> {
        let unreadable = given.status == Status::Records && txt::texts(&given.bytes).is_none();
        let short = lent.len() < SCRATCH_OCTETS;
        let asked = self.book.now_asked().map(<[u8]>::to_vec);
        let own = asked
            .as_ref()
            .is_some_and(|asked| self.names(asked, &given.name));
        match self.wrong {
            OpeningKeepsTheNameAsked if !own && self.is_before(&given.name) => return Ok(()),
            ForgetsTheNameAfterARefusedAnswer if self.forgotten => return Err(Refusal::new(5, 0)),
            ReadingBeforeTheName if unreadable => return Err(Refusal::new(6, 0)),
            ScratchBeforeReading if own && short => {
                return Err(Refusal::new(10, SCRATCH_OCTETS));
            }
            _ => {}
        }
        let Some(asked) = asked.filter(|_| own) else {
            return Err(Refusal::new(5, 0));
        };
        self.answer_asked(&asked, given, lent)
    }

    /// Whether an answer's name is the one now asked.
    fn names(&self, asked: &[u8], name: &[u8]) -> bool {
        let spelled = match self.wrong {
            FinalDotOfNamesKept => name,
            TwoFinalDotsOfNames => without_dot(without_dot(name)),
            _ => without_dot(name),
        };
        match self.wrong {
            CaseOfNamesMatters => spelled == asked,
            _ => spelled.eq_ignore_ascii_case(asked),
        }
    }

    fn is_before(&self, name: &[u8]) -> bool {
        !self.before.is_empty() && without_dot(name).eq_ignore_ascii_case(&self.before)
    }

    fn answer_asked(
        &mut self,
        asked: &[u8],
        given: &AnswerCall,
        lent: &mut [u8],
    ) -> Result<(), Refusal> {
        let mut answer = Answer {
            status: given.status,
            bytes: &given.bytes,
        };
        let read = txt::texts(&given.bytes);
        let mut enough = [0; SCRATCH_OCTETS];
        let records = txt::records(&given.bytes).map_or(0, |records| records.len());
        match (self.wrong, given.status) {
            (TimeoutIsNone, Status::Error) => answer = Answer::NONE,
            (UnreadableIsNone, Status::Records) if read.is_none() => answer = Answer::NONE,
            (SeventeenRecords, Status::Records) if records == MOST_RECORDS + 1 => {
                answer = Answer::NONE;
            }
            (BytesBesideNoneAreRead, Status::None) if read.is_none() => {
                return Err(Refusal::new(6, 0));
            }
            (NoneNeedsNoScratch, Status::None) if lent.len() < SCRATCH_OCTETS => {
                return self.book.answer(asked, answer, &mut enough);
            }
            _ => {}
        }
        let answered = self.book.answer(asked, answer, lent);
        match answered {
            Ok(()) if answer.status == Status::Records => self.spoil(&given.bytes, lent),
            Err(refusal) if refusal.number == 6 && self.is(KeepsARefusedAnswer) => {
                self.book.answer(asked, Answer::ERROR, &mut enough)?;
            }
            Err(_) => self.forgotten = true,
            Ok(()) => {}
        }
        answered
    }

    /// What else is left in the scratch.
    fn spoil(&self, bytes: &[u8], lent: &mut [u8]) {
        let mut texts = txt::texts(bytes).unwrap_or_default();
        if self.is(TextsInReverse) {
            texts.reverse();
        }
        let text = texts.concat();
        let (front, rest) = lent.split_at_mut(text.len());
        front.copy_from_slice(&text);
        match (self.wrong, rest.first_mut()) {
            (WritesPastTheTexts, Some(next)) => *next = 0,
            (ScratchIsFilled, Some(_)) => rest.fill(0),
            _ => {}
        }
    }
}
