//! Calls on an evaluation that keep the rules, or break one of them.

mod answers;
mod verdicts;

use crate::calls::Calls;
use crate::wrongs::wrongs;
use evaluator::book::{Book, Step};
use evaluator::domain::{fault, without_dot};
use evaluator::message::MOST_IDENTIFIERS;
use evaluator::refusal::Refusal;
use sheets::programs::calls::{AddCall, Call, OpenCall, Told};

wrongs! {
    RefusedOpeningCloses
    OpeningKeepsTheNameAsked
    NumbersBeforeTheAuthor
    UnlistedSupport
    TwoFinalDotsOfTheAuthor
    AddsAfterTheFirstName
    NumbersBeforeTooLate
    CountBeforeNumbers
    DomainBeforeTheCount
    DomainBeforeNumbers
    IndexCountsRefusedAdds
    SecondSpfAfterNoPass
    SeventeenIdentifiers
    RepeatedAskCountsTwice
    NameInTheCaseGiven
    KeepsARefusedAnswer
    ForgetsTheNameAfterARefusedAnswer
    TimeoutIsNone
    UnreadableIsNone
    ScratchBeforeReading
    ReadingBeforeTheName
    NoneNeedsNoScratch
    BytesBesideNoneAreRead
    TextsInReverse
    WritesPastTheTexts
    ScratchIsFilled
    CaseOfNamesMatters
    FinalDotOfNamesKept
    TwoFinalDotsOfNames
    SeventeenRecords
    DomainIsTheAuthors
    AlignmentsReversed
    PolicyWithoutSupport
    ResultBeforeTheVerdict
    ResultOnlyAfterTheStep
    FieldWithoutIdentifiers
    FieldOfATemperror
    FieldNeedsOneMore
    FieldCutOff
    SpfBeforeDkim
    FindingBeforeTheVerdict
    FindingOfTheOtherKind
    FindingWithoutItsDomain
}

use Wrong::*;

/// A book with a rule broken.
#[derive(Clone)]
pub struct Twin {
    wrong: Wrong,
    book: Book,
    /// The author as it was given.
    author: Vec<u8>,
    /// Kind and outcome of each identifier.
    added: Vec<(u8, u8)>,
    /// How many identifiers were refused.
    refused: usize,
    /// The name that was asked at the opening.
    before: Vec<u8>,
    /// Names that were given again.
    repeats: usize,
    /// The name asked counts no more.
    forgotten: bool,
    /// The step gave the verdict.
    told: bool,
}

impl Calls for Twin {
    type State = Book;

    fn make(&mut self, call: &Call, lent: &mut [u8]) -> Result<Told, String> {
        Ok(match call {
            Call::Open(given) => self.open(given),
            Call::Add(given) => Told::of(self.add(given), |()| Told::Accepted),
            Call::Next => self.next_step(),
            Call::Answer(given) => Told::of(self.answer(given, lent), |()| Told::Accepted),
            Call::Result => Told::of(self.result(), Told::Verdict),
            Call::Field { .. } => Told::of(self.field(lent), Told::Wrote),
            Call::Finding => Told::of(self.finding(), Told::Finding),
        })
    }

    fn state(&self) -> Book {
        self.book.clone()
    }
}

impl Twin {
    pub fn new(wrong: Wrong) -> Twin {
        Twin {
            wrong,
            book: Book::default(),
            author: Vec::new(),
            added: Vec::new(),
            refused: 0,
            before: Vec::new(),
            repeats: 0,
            forgotten: false,
            told: false,
        }
    }

    fn is(&self, wrong: Wrong) -> bool {
        self.wrong == wrong
    }

    fn open(&mut self, given: &OpenCall) -> Told {
        let unlisted = given.existence > 2 || given.support > 1;
        if unlisted && self.is(NumbersBeforeTheAuthor) {
            return Told::Refused(Refusal::new(3, 255));
        }
        let mut given = given.clone();
        if self.is(UnlistedSupport) {
            given.support = given.support.min(1);
        }
        if self.is(TwoFinalDotsOfTheAuthor) && given.author.ends_with(b"..") {
            given.author.pop();
        }
        let before = self.book.now_asked().map(<[u8]>::to_vec);
        let opened = given.make(&mut self.book);
        match opened {
            Ok(()) => {
                *self = Twin {
                    book: self.book.clone(),
                    author: given.author,
                    before: before.unwrap_or_default(),
                    ..Twin::new(self.wrong)
                };
            }
            Err(_) if self.is(RefusedOpeningCloses) => self.book = Book::default(),
            Err(_) => {}
        }
        Told::of(opened, |()| Told::Accepted)
    }

    fn add(&mut self, given: &AddCall) -> Result<(), Refusal> {
        let added = given.make(&mut self.book);
        let Err(refusal) = added else {
            self.added.push((given.kind, given.outcome));
            return Ok(());
        };
        self.refused += 1;
        let index = self.added.len();
        let second_spf = given.kind == 0 && self.added.iter().any(|(kind, _)| *kind == 0);
        let too_many = second_spf || index >= MOST_IDENTIFIERS;
        let unlisted = given.kind > 1 || given.outcome > 2;
        let bad = fault(&given.domain).is_some();
        let number = refusal.number;
        Err(match self.wrong {
            AddsAfterTheFirstName if number == 17 && self.book.names().len() == 1 => return Ok(()),
            NumbersBeforeTooLate if number == 17 && unlisted => Refusal::new(3, index),
            CountBeforeNumbers if number == 3 && too_many => Refusal::new(4, index),
            DomainBeforeTheCount if number == 4 && bad => Refusal::new(2, index),
            DomainBeforeNumbers if number == 3 && bad => Refusal::new(2, index),
            IndexCountsRefusedAdds if number != 17 => {
                Refusal::new(number, index + self.refused - 1)
            }
            SecondSpfAfterNoPass if number == 4 && self.added.contains(&(0, 0)) => return Ok(()),
            SeventeenIdentifiers if number == 4 && !second_spf && index == 16 => return Ok(()),
            _ => refusal,
        })
    }

    fn next_step(&mut self) -> Told {
        let asked = self.book.now_asked().is_some();
        let step = self.book.next_step();
        self.forgotten = false;
        match &step {
            Ok(Step::Ask(_)) => self.repeats += usize::from(asked),
            Ok(Step::Verdict(_)) => self.told = true,
            Err(_) => {}
        }
        match Told::of(step, Told::step) {
            Told::Ask(name) if self.is(NameInTheCaseGiven) => Told::Ask(self.as_given(name)),
            Told::Verdict(verdict) => Told::Verdict(self.spoilt(verdict)),
            told => told,
        }
    }

    /// A name with the author's own spelling at its end.
    fn as_given(&self, mut name: Vec<u8>) -> Vec<u8> {
        let author = without_dot(&self.author);
        for (octet, given) in name.iter_mut().rev().zip(author.iter().rev()) {
            if octet.eq_ignore_ascii_case(given) {
                *octet = *given;
            }
        }
        name
    }
}
