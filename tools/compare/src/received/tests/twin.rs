//! A reader of reports that keeps the rules, or breaks one of them. It keeps the octets of
//! the open record, and reads them from its beginning with every part.

mod address;
mod head;
mod record;
mod values;

use crate::received::code::{Code, Row, Step, Told};
use crate::wrongs::wrongs;
use evaluator::refusal::Refusal;

wrongs! {
    DeclarationOptional
    ApostrophesTaken
    OtherNamespaceTaken
    BlanksBetweenElements
    VersionTaken
    LineEndAtTheEnd
    ContactNeeded
    ContactRefused
    EmptyContactTaken
    EmptyTextTaken
    GreaterTaken
    AmpersandTaken
    QuoteEntityTaken
    GreaterEntityRefused
    DeleteTaken
    TabTaken
    TildeRefused
    TextLimitAfterEntities
    TextLimitOneLower
    TextLimitOneHigher
    TextLimitAtItsEnd
    EmptyIdTaken
    IdOf65Taken
    IdOf64Refused
    HyphenInIdTaken
    CapitalInIdRefused
    LeadingZerosTaken
    LeadingZeroIsOver
    OverIsOutside
    OverAtItsFirstDigit
    OverAtItsEnd
    OverWraps
    TimesOf63Bits
    CountOf31Bits
    CountOf64Bits
    CountZeroTaken
    EndBelowBeginTaken
    EndEqualToBeginRefused
    EndBelowBeginAtItsFirstDigit
    EndBelowBeginBehindItsTag
    EndBelowBeginOfTheLast
    SpNeeded
    NpBeforeSpTaken
    ModeInCapitals
    TestingOptional
    LabelOf64Taken
    LabelOf63Refused
    DomainOf254Taken
    DomainOf253Refused
    DomainLimitAtItsEnd
    DotAtTheLimitTaken
    EmptyLabelsTaken
    FinalDotTaken
    CapitalsTaken
    UnderscoreRefused
    HyphenFirstRefused
    SelectorOfOneLabel
    MappedGroupsTaken
    MappedAtItsEnd
    AllZeroFrontRefused
    LastGroupMapped
    EmptyGroupsTaken
    GroupsInCapitals
    GroupsWithLeadingZeros
    GroupsOfFiveDigits
    SevenGroupsTaken
    OctetOver255Taken
    OctetsWithLeadingZeros
    FirstOctetJudgedAsOne
    DottedIsCompatible
    GroupsLowOctetFirst
    PassIsHandedOut
    AlignedNoneTaken
    UnalignedPassTaken
    UnalignedPassAtItsEnd
    AlignedRejectRefused
    FlagsSwapped
    OutcomesSwapped
    PermerrorTaken
    SeventeenIdentifiers
    FifteenIdentifiers
    SpfNotCounted
    TwoSpf
    DkimAfterSpf
    SpfHandedOutFirst
    SpfWithTheLastSelector
    IdentifiersNotCleared
    ScopeTaken
    SelectorOptional
    OneRecordMore
    OneRecordFewer
    NoRecordTaken
    RecordsNotLimited
    RowBeforeItsEnd
    RowAtTheNextOctet
    LastRowKept
    AuthorInCapitals
    TagAtItsBegin
    WordAtItsBegin
    PlaceInThePart
    PlaceOneMore
    EarlyAtEachPart
    EarlyIsOutside
    EarlyOneLess
    EarlyForgotten
    RefusalForgotten
    RefusalMovesOn
    EndAfterARefusalIsEarly
    EndTwiceIsEarly
    BehindTheEndTaken
    BehindTheEndInItsPart
    EmptyPartIsTheEnd
    CutLosesTheEntity
    CutLosesTheNumber
    CutLosesTheLabel
}

use Wrong::*;

/// The rules but for one.
pub struct Twin(pub Wrong);

/// Why reading stops.
pub enum Stop {
    /// The octets end.
    Early,
    /// A refusal, with its place among the octets kept.
    Refused(u8, usize),
}

pub type Read<T> = Result<T, Stop>;

/// What comes next.
pub enum Found {
    Row(Box<Row>),
    Whole,
}

#[derive(Clone, Default)]
pub struct State {
    /// Octets before those that are kept.
    base: usize,
    kept: Vec<u8>,
    /// Where parts began, among those that are kept.
    cuts: Vec<usize>,
    head: bool,
    records: usize,
    /// A record was handed out before its last tag.
    unclosed: bool,
    last: Row,
    refusal: Option<Refusal>,
    ended: bool,
}

/// The octets kept, as far as they were read.
pub struct Parser<'t> {
    pub wrong: Wrong,
    pub text: &'t [u8],
    pub cuts: &'t [usize],
    pub at: usize,
}

impl Code for Twin {
    type State = State;

    fn start(&self) -> State {
        State::default()
    }

    fn step(&self, state: &mut State, part: &[u8]) -> Result<Step, String> {
        if let Some(refusal) = state.refusal {
            match self.0 {
                RefusalForgotten if refusal.number != 22 => *state = State::default(),
                EarlyForgotten if refusal.number == 22 => state.refusal = None,
                RefusalMovesOn => {
                    let moved = Refusal::new(refusal.number, refusal.place + part.len());
                    state.refusal = Some(moved);
                    return Ok(refused(moved));
                }
                _ => return Ok(refused(refusal)),
            }
        }
        if part.is_empty() && self.is(EmptyPartIsTheEnd) {
            let told = self.end(state)?;
            return Ok(Step { read: 0, told });
        }
        Ok(self.take(state, part))
    }

    fn end(&self, state: &mut State) -> Result<Told, String> {
        if let Some(refusal) = state.refusal {
            return Ok(Told::Refused(match self.0 {
                EndAfterARefusalIsEarly => Refusal::new(22, state.base + state.kept.len()),
                _ => refusal,
            }));
        }
        let whole = matches!(self.parse(state).0, Ok(Found::Whole));
        let again = std::mem::replace(&mut state.ended, true);
        if whole && !(again && self.is(EndTwiceIsEarly)) {
            return Ok(Told::More);
        }
        let number = if self.is(EarlyIsOutside) { 20 } else { 22 };
        let less = usize::from(self.is(EarlyOneLess));
        let place = (state.base + state.kept.len()).saturating_sub(less);
        let refusal = Refusal::new(number, place);
        state.refusal = Some(refusal);
        Ok(Told::Refused(refusal))
    }
}

fn refused(refusal: Refusal) -> Step {
    let told = Told::Refused(refusal);
    Step { read: 0, told }
}

impl Twin {
    fn is(&self, wrong: Wrong) -> bool {
        self.0 == wrong
    }

    /// The kept octets from their beginning on, and how many were read.
    fn parse(&self, state: &State) -> (Read<Found>, usize) {
        let mut parser = Parser {
            wrong: self.0,
            text: &state.kept,
            cuts: &state.cuts,
            at: 0,
        };
        let found = parser.next(state);
        (found, parser.at)
    }

    /// A part behind what is kept.
    fn take(&self, state: &mut State, part: &[u8]) -> Step {
        let before = state.kept.len();
        state.cuts.push(before);
        state.kept.extend(part);
        let (found, at) = self.parse(state);
        match found {
            Ok(Found::Row(row)) => self.hand_out(state, *row, (before, at)),
            Ok(Found::Whole) if at == state.kept.len() || self.is(BehindTheEndTaken) => more(part),
            Ok(Found::Whole) => self.refuse(state, 20, (before, at)),
            Err(Stop::Refused(number, place)) => self.refuse(state, number, (before, place)),
            Err(Stop::Early) if self.is(EarlyAtEachPart) => {
                self.refuse(state, 22, (before, before + part.len()))
            }
            Err(Stop::Early) => more(part),
        }
    }

    fn hand_out(&self, state: &mut State, mut row: Row, place: (usize, usize)) -> Step {
        let (before, at) = place;
        let late = usize::from(self.is(RowAtTheNextOctet));
        if self.is(AuthorInCapitals) {
            row.author.make_ascii_uppercase();
        }
        let read = (at + late).saturating_sub(before);
        state.base += at;
        state.kept.truncate(before + read);
        state.kept.drain(..at);
        state.cuts.clear();
        state.head = true;
        state.records += 1;
        state.unclosed = self.is(RowBeforeItsEnd);
        let last = std::mem::replace(&mut state.last, row);
        let handed = if self.is(LastRowKept) {
            last
        } else {
            state.last.clone()
        };
        let told = Told::Row(Box::new(handed));
        Step { read, told }
    }

    fn refuse(&self, state: &mut State, number: u8, place: (usize, usize)) -> Step {
        let (before, at) = place;
        let place = match self.0 {
            PlaceInThePart => at.saturating_sub(before),
            PlaceOneMore => state.base + at + 1,
            BehindTheEndInItsPart if state.ended => at.saturating_sub(before),
            _ => state.base + at,
        };
        let refusal = Refusal::new(number, place);
        state.refusal = Some(refusal);
        refused(refusal)
    }
}

fn more(part: &[u8]) -> Step {
    Step {
        read: part.len(),
        told: Told::More,
    }
}

impl Parser<'_> {
    pub fn is(&self, wrong: Wrong) -> bool {
        self.wrong == wrong
    }

    pub fn peek(&self) -> Read<u8> {
        self.text.get(self.at).copied().ok_or(Stop::Early)
    }

    pub fn outside<T>(&self) -> Read<T> {
        Err(Stop::Refused(20, self.at))
    }

    /// Outside the form unless something holds.
    pub fn only_if(&self, holds: bool) -> Read<()> {
        match holds {
            true => Ok(()),
            false => self.outside(),
        }
    }

    /// Whether a part began here, behind a place.
    pub fn cut_behind(&self, begin: usize) -> bool {
        self.at > begin && self.cuts.contains(&self.at)
    }

    /// What comes behind the last record, or behind nothing.
    fn next(&mut self, state: &State) -> Read<Found> {
        if !state.head {
            self.head()?;
        }
        if state.unclosed {
            self.tag("</record>")?;
        }
        let most = match self.wrong {
            OneRecordMore => 257,
            OneRecordFewer => 255,
            RecordsNotLimited => usize::MAX,
            _ => 256,
        };
        let mut ways = Vec::new();
        if state.records < most {
            ways.push("<record>");
        }
        if state.records > 0 || self.is(NoRecordTaken) {
            ways.push("</feedback>");
        }
        if self.tags(&ways)? == "</feedback>" {
            while self.is(LineEndAtTheEnd) && self.peek().is_ok_and(|own| b"\r\n".contains(&own)) {
                self.at += 1;
            }
            return Ok(Found::Whole);
        }
        let row = self.record(&state.last)?;
        if self.is(RowAtTheNextOctet) {
            self.peek()?;
        }
        Ok(Found::Row(Box::new(row)))
    }

    pub fn tag(&mut self, text: &str) -> Read<()> {
        self.tags(&[text]).map(|_| ())
    }

    /// One of these tags.
    pub fn tags<'w>(&mut self, ways: &[&'w str]) -> Read<&'w str> {
        let begin = self.at;
        match self.one_of(ways, self.is(BlanksBetweenElements)) {
            Err(Stop::Refused(number, _)) if self.is(TagAtItsBegin) => {
                Err(Stop::Refused(number, begin))
            }
            other => other,
        }
    }

    /// One of these words.
    pub fn word<'w>(&mut self, ways: &[&'w str]) -> Read<&'w str> {
        let begin = self.at;
        match self.one_of(ways, false) {
            Err(Stop::Refused(number, _)) if self.is(WordAtItsBegin) => {
                Err(Stop::Refused(number, begin))
            }
            other => other,
        }
    }

    fn one_of<'w>(&mut self, ways: &[&'w str], blanks: bool) -> Read<&'w str> {
        let (mut open, mut read) = (ways.to_vec(), 0);
        loop {
            if let Some(way) = open.iter().find(|way| way.len() == read) {
                return Ok(way);
            }
            let begins = |way: &&str| way.as_bytes()[read] == b'<';
            while blanks && open.iter().any(begins) && self.peek()?.is_ascii_whitespace() {
                self.at += 1;
            }
            let octet = self.peek()?;
            open.retain(|way| way.as_bytes()[read] == octet);
            self.only_if(!open.is_empty())?;
            self.at += 1;
            read += 1;
        }
    }
}
