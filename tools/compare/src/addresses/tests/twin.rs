//! Calls of an address check that keep the rules, or break one of them.

mod answers;
mod hosts;
mod names;

use crate::addresses::Checks;
use crate::wrongs::wrongs;
use evaluator::address::{Outcome, Verdict};
use evaluator::domain::Domain;
use evaluator::refusal::Refusal;
use evaluator::txt::Status;
use sheets::programs::checks::{Call, StartCall, Told};

wrongs! {
    EntryBeforePolicy
    TwoFinalDotsOfThePolicy
    FinalDotOfThePolicyRefused
    FinalDotOfTheHostRefused
    BlanksOfTheEntryRefused
    CommaAllowed
    ExclamationAllowed
    AnyScheme
    SchemeInOneCase
    FirstAt
    HostToTheQuestionMark
    EmptyLocalPartRefused
    RefusedStartCloses
    StartKeepsAnswers
    StartKeepsTheNameAsked
    EqualDomainsAreWalked
    HostFirst
    PausesAtARecord
    NearestRecordIsOrganizational
    GoesOnAfterAnError
    ErrorIsAPlainNo
    ErrorAsksTheConfirmingName
    TimeoutIsNone
    ConfirmingNameFirst
    ConfirmsInside
    HostBeforePolicyInTheName
    NameWithoutReport
    NameInTheCaseGiven
    LimitOneLess
    LimitOneMore
    TooLongIsNotKnown
    ErrorAtTheNameIsNo
    NoRecordIsNotKnown
    TwoRecordsAreNone
    RepeatsConfirm
    UsableRecordsAlone
    FirstRecordAlone
    LastRecordFirst
    EveryRecordIsJudged
    RecordWithoutHostsIsNo
    FirstHostOfTheList
    OneSuchHostIsEnough
    LastHostAlone
    HostsBelowAreTheSame
    OtherHostKeepsTheAddress
    OtherHostIsNotKnown
    OtherHostIsPassedOver
    NothingReplaces
    PlaceInItsText
    PlaceOfRecordsAlone
    PlaceOfTheFirstEntry
    RepeatedAskCountsTwice
    CountWithoutTheConfirmingName
    ResultBeforeTheVerdict
    ResultOnlyAfterTheStep
    AnswerBeforeAStartIs7
    ScratchBeforeReading
    ReadingBeforeTheName
    NoneNeedsNoScratch
    UnreadableIsNone
    CaseOfNamesMatters
    FinalDotOfNamesKept
    TwoFinalDotsOfNames
    ForgetsTheNameAfterARefusedAnswer
    TextsInReverse
    RecordsAloneAreWritten
    WritesPastTheTexts
}

use Wrong::*;

/// The rules but for one.
#[derive(Clone)]
pub struct Twin {
    wrong: Wrong,
    state: State,
}

/// An answer that was accepted: its name, its kind and its bytes.
type Accepted = (Vec<u8>, Status, Vec<u8>);

#[derive(Clone, Default, PartialEq)]
pub struct State {
    started: Option<Started>,
    accepted: Vec<Accepted>,
    asked: Option<Vec<u8>>,
    /// Names that were given again.
    repeats: usize,
    /// The step gave the verdict.
    told: bool,
}

#[derive(Clone, PartialEq)]
struct Started {
    policy: Domain,
    host: Domain,
    /// The policy domain as it was given.
    spelled: Vec<u8>,
}

impl Checks for Twin {
    type State = State;

    fn make(&mut self, call: &Call, lent: &mut [u8]) -> Result<Told, String> {
        let accepted = |()| Told::Accepted;
        Ok(match call {
            Call::Start(given) => Told::of(self.start(given), accepted),
            Call::Next => self.next_step(),
            Call::Answer(given) => Told::of(self.answer(given, lent), accepted),
            Call::Result => Told::of(self.result(), Told::Verdict),
        })
    }

    fn state(&self) -> State {
        self.state.clone()
    }
}

impl Twin {
    pub fn new(wrong: Wrong) -> Twin {
        Twin {
            wrong,
            state: State::default(),
        }
    }

    fn is(&self, wrong: Wrong) -> bool {
        self.wrong == wrong
    }

    fn start(&mut self, given: &StartCall) -> Result<(), Refusal> {
        let (policy, host) = (self.policy(&given.policy), self.host(&given.entry));
        let number = if policy.is_none() { 11 } else { 23 };
        let number = match host.is_none() && self.is(EntryBeforePolicy) {
            true => 23,
            false => number,
        };
        let (Some(policy), Some(host)) = (policy, host) else {
            if self.is(RefusedStartCloses) {
                self.state = State::default();
            }
            return Err(Refusal::new(number, 0));
        };
        let before = std::mem::take(&mut self.state);
        self.state.started = Some(Started {
            policy,
            host,
            spelled: given.policy.clone(),
        });
        if self.is(StartKeepsAnswers) {
            self.state.accepted = before.accepted;
        }
        if self.is(StartKeepsTheNameAsked) {
            self.state.asked = before.asked;
        }
        Ok(())
    }

    fn next_step(&mut self) -> Told {
        match self.judged() {
            None => Told::Refused(Refusal::new(7, 0)),
            Some(Ok(verdict)) => {
                self.state.told = true;
                Told::Verdict(verdict)
            }
            Some(Err(name)) => {
                self.state.repeats += usize::from(self.state.asked.is_some());
                self.state.asked = Some(name.clone());
                Told::Ask(name)
            }
        }
    }

    fn result(&self) -> Result<Verdict, Refusal> {
        match self.judged() {
            Some(Ok(_)) if self.is(ResultOnlyAfterTheStep) && !self.state.told => {
                Err(Refusal::new(7, 0))
            }
            Some(Ok(verdict)) => Ok(verdict),
            Some(Err(_)) if self.is(ResultBeforeTheVerdict) => Ok(Verdict {
                outcome: Outcome::NotKnown,
                asked: 0,
            }),
            _ => Err(Refusal::new(7, 0)),
        }
    }
}
