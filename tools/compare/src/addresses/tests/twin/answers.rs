//! The call that answers a name.

use super::{Twin, Wrong::*};
use evaluator::policy;
use evaluator::refusal::Refusal;
use evaluator::txt::{self, Status};
use sheets::programs::calls::AnswerCall;

impl Twin {
    pub fn answer(&mut self, given: &AnswerCall, lent: &mut [u8]) -> Result<(), Refusal> {
        if self.is(AnswerBeforeAStartIs7) && self.state.started.is_none() {
            return Err(Refusal::new(7, 0));
        }
        let readable = self.is(UnreadableIsNone) || txt::acceptable(given.answer());
        let mut faults = [
            (5, 0, !self.is_asked(&given.name)),
            (6, 0, !readable),
            (10, 4096, self.too_short(given, lent)),
        ];
        match self.wrong {
            ScratchBeforeReading => faults.swap(1, 2),
            ReadingBeforeTheName => faults.swap(0, 1),
            _ => {}
        }
        if let Some((number, place, _)) = faults.iter().find(|fault| fault.2) {
            if *number != 5 && self.is(ForgetsTheNameAfterARefusedAnswer) {
                self.state.asked = None;
            }
            return Err(Refusal::new(*number, *place));
        }
        self.write(given, lent);
        if let Some(name) = self.state.asked.take() {
            let accepted = (name, given.status, given.bytes.clone());
            self.state.accepted.push(accepted);
        }
        Ok(())
    }

    fn is_asked(&self, name: &[u8]) -> bool {
        let Some(asked) = self.state.asked.as_deref() else {
            return false;
        };
        let name = match name.strip_suffix(b".") {
            Some(rest) if !self.is(FinalDotOfNamesKept) => rest,
            _ => name,
        };
        let name = match name.strip_suffix(b".") {
            Some(rest) if self.is(TwoFinalDotsOfNames) => rest,
            _ => name,
        };
        match self.is(CaseOfNamesMatters) {
            true => name == asked,
            false => name.eq_ignore_ascii_case(asked),
        }
    }

    fn too_short(&self, given: &AnswerCall, lent: &[u8]) -> bool {
        let needs = given.status == Status::Records || !self.is(NoneNeedsNoScratch);
        needs && lent.len() < 4096
    }

    /// The texts of an answer in the scratch.
    fn write(&self, given: &AnswerCall, lent: &mut [u8]) {
        let mut texts = txt::given_texts(given.answer());
        match self.wrong {
            TextsInReverse => texts.reverse(),
            RecordsAloneAreWritten => texts.retain(|text| policy::read(text).is_some()),
            WritesPastTheTexts if !texts.is_empty() => texts.push(vec![0]),
            _ => {}
        }
        let text = texts.concat();
        if let Some(part) = lent.get_mut(..text.len()) {
            part.copy_from_slice(&text);
        }
    }
}
