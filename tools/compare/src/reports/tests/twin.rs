//! Reports and subjects that keep the rules, or break one of them.

mod judged;
mod row;
mod text;

use crate::histories::code::{Changed, Code as Rows, Entered};
use crate::histories::tests::twin as rows;
use crate::reports::code::{Asked, Code, Told};
use crate::reports::day::Subject;
use crate::wrongs::wrongs;
use evaluator::domain::{fault, without_dot};
use evaluator::refusal::Refusal;
use waslidhaj::raw::{List, Row};

wrongs! {
    NoDeclaration
    LineEndAfterTheDeclaration
    LineEndAtTheEnd
    BlanksBetweenElements
    ApostrophesAtTheRoot
    NoNamespace
    VersionWritten
    EmptyContactWritten
    ContactLeftOut
    ContactBeforeEmail
    IdAfterTheTimes
    TimesSwapped
    AbsentSpIsP
    AbsentNpIsSp
    DefaultsLeftOut
    TestingBeforeTheModes
    NpBeforeSp
    ModesSwapped
    UnusablePIsNoneAlone
    UnusableIsWrittenAsItIs
    UnusableModesAreDefaults
    TestingStepsThePolicy
    InvalidSpIsUsable
    UnlistedModeIsStrict
    UnlistedTestingIsYes
    ListsDomainAsItStands
    ListsFinalDotDropped
    MappedAsGroups
    CompatibleIsDotted
    MappedByItsLastOctets
    GroupsShortened
    GroupsWithLeadingZeros
    GroupsInUpperCase
    OctetsWithLeadingZeros
    CountIsSigned
    CountOfSixteenBits
    AlignedNoneIsNone
    AlignedRejectIsPass
    PassForBothAlone
    UnlistedDispositionIsReject
    UnlistedDispositionIsNeverPass
    FlagsSwapped
    FlagIsItsLowestBit
    OneIsTheOnlyFlag
    ReasonWritten
    EnvelopeFromWritten
    ScopeWritten
    AuthorAsItStands
    AuthorIsTheListsDomain
    SpfInItsPlace
    SpfFirst
    DkimReversed
    ResultBeforeSelector
    SelectorAsItStands
    SelectorsFinalDotKept
    SpfSelectorWritten
    NotPassingIsNone
    TemporaryErrorIsFail
    EmptySetClosedAtOnce
    EmptySetLeftOut
    FreeRowsWritten
    OneRowMore
    OneRowFewer
    EqualRowsJoined
    RowsBySource
    AmpersandKept
    LessKept
    GreaterKept
    QuotesEscaped
    EntityKept
    LimitAfterEntities
    LimitOneLower
    LimitOneHigher
    ContactNotJudged
    EmptyEmailAllowed
    EmptyContactRefused
    DeleteAllowed
    TabAllowed
    BlankRefused
    IdIsAText
    IdOf65Allowed
    IdOf64Refused
    IdInLowerCase
    EqualTimesRefused
    TimesNotJudged
    ListsDomainNotJudged
    AuthorNotJudged
    IdentifiersNotJudged
    SelectorNotJudged
    EmptySelectorAllowed
    SelectorOfOneLabel
    SpfSelectorJudged
    FirstRowJudgedAlone
    FreeRowsJudged
    NeverClearedIsWritten
    CountsFirst
    TextsBeforeLists
    DomainsBeforeTexts
    DomainsBeforeLists
    RoomFirst
    RoomBeforeDomains
    NumberAtItsRow
    OneOctetMoreNeeded
    OneOctetLessNeeded
    NeededOneLess
    WrittenAsFarAsItGoes
    WrittenPastTheEnd
    LengthOneMore
    SubjectWithItsName
    SubjectWithALineEnd
    SubjectWithTwoBlanks
    SubjectDomainsSwapped
    SubjectIdBare
    SubjectEmptyIdLeftOut
    SubjectIdNotJudged
    SubjectDomainsAsTheyStand
    SubjectReceiverNotJudged
    SubjectInLowerCase
}

use Wrong::*;

/// The rules but for one.
pub struct Twin(pub Wrong);

/// Its rows keep the rules.
const ROWS: rows::Twin = rows::Twin(rows::Wrong::Nothing);

impl Rows for Twin {
    fn new_list(&self) -> List {
        ROWS.new_list()
    }

    fn clear(&self, list: List, domain: &[u8], rows: &mut [Row]) -> Changed {
        ROWS.clear(list, domain, rows)
    }

    fn enter(&self, list: List, entered: Entered<'_>, rows: &mut [Row]) -> Changed {
        ROWS.enter(list, entered, rows)
    }
}

impl Code for Twin {
    fn report(&self, asked: &Asked<'_>, out: &mut [u8]) -> Result<Told, String> {
        let day = self.read(asked);
        let text = self.text(&day);
        let short = out.len() < text.len();
        let told = match self.refusal(&day) {
            Some(_) if self.is(RoomFirst) && short => self.lend(&text, out),
            Some(own) if self.is(RoomBeforeDomains) && own.number == 11 && short => {
                self.lend(&text, out)
            }
            Some(own) => Err(own),
            None => self.lend(&text, out),
        };
        Ok(Told(told))
    }

    fn subject(&self, subject: &Subject, out: &mut [u8]) -> Result<Told, String> {
        let bad = |domain: &[u8]| fault(domain).is_some();
        let receiver = !self.is(SubjectReceiverNotJudged) && bad(&subject.receiver);
        let id = match self.0 {
            SubjectIdNotJudged => false,
            SubjectEmptyIdLeftOut if subject.id.is_empty() => false,
            _ => self.bad_id(&subject.id),
        };
        Ok(Told(match receiver || bad(&subject.domain) || id {
            true => Err(Refusal::new(11, 0)),
            false => self.lend(&self.subject_text(subject), out),
        }))
    }
}

impl Twin {
    fn is(&self, wrong: Wrong) -> bool {
        self.0 == wrong
    }

    /// An output into lent memory.
    fn lend(&self, text: &[u8], out: &mut [u8]) -> Result<usize, Refusal> {
        let length = text.len();
        let needed = match self.0 {
            OneOctetMoreNeeded => length + 1,
            OneOctetLessNeeded => length.saturating_sub(1),
            _ => length,
        };
        let fits = length.min(out.len());
        if out.len() < needed {
            if self.is(WrittenAsFarAsItGoes) {
                out[..fits].copy_from_slice(&text[..fits]);
            }
            let less = usize::from(self.is(NeededOneLess));
            return Err(Refusal::new(10, length - less));
        }
        out[..fits].copy_from_slice(&text[..fits]);
        if self.is(WrittenPastTheEnd) && out.len() > length {
            out[length] = 0;
        }
        Ok(length + usize::from(self.is(LengthOneMore)))
    }

    fn subject_text(&self, subject: &Subject) -> Vec<u8> {
        let domain = |text: &[u8]| match self.0 {
            SubjectDomainsAsTheyStand => without_dot(text).to_vec(),
            _ => without_dot(text).to_ascii_lowercase(),
        };
        let (policy, receiver) = match self.0 {
            SubjectDomainsSwapped => (&subject.receiver, &subject.domain),
            _ => (&subject.domain, &subject.receiver),
        };
        let id = String::from_utf8_lossy(&subject.id);
        let id = match self.0 {
            SubjectIdBare => format!("Report-ID: {id}"),
            SubjectEmptyIdLeftOut if id.is_empty() => String::new(),
            SubjectInLowerCase => format!("Report-ID: <{}>", id.to_lowercase()),
            _ => format!("Report-ID: <{id}>"),
        };
        let parts = [domain(policy), domain(receiver)]
            .map(|own| String::from_utf8_lossy(&own).into_owned());
        let [policy, receiver] = parts;
        let text = format!("Report Domain: {policy} Submitter: {receiver} {id}");
        match self.0 {
            SubjectWithItsName => format!("Subject: {text}"),
            SubjectWithALineEnd => text + "\r\n",
            SubjectWithTwoBlanks => text.replacen(" Submitter", "  Submitter", 1),
            _ => text,
        }
        .into_bytes()
    }
}
