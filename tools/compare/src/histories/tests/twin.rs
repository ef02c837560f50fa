//! Daily rows that keep the rules, or break one of them.

mod lists;

use crate::histories::code::{Changed, Code, Entered};
use crate::wrongs::wrongs;
use evaluator::domain::{fault, without_dot};
use waslidhaj::raw::{Entry, FindingNumbers, List, ListChanged, Refusal, Row, Seen};

wrongs! {
    FreeRowMatches
    FreeRowBeforeItsMatch
    FreeRowKeepsItsSource
    OneRowMore
    OneRowMoreCleared
    OneRowFewer
    LastMatch
    PastAFullMatch
    FreeRowForAFullMatch
    RaisedByTwo
    LimitOneLower
    NoLimit
    SourceByItsEnd
    NoDisposition
    NoDkim
    NoSpf
    DeferEntered
    UnlistedEntered
    NoneEntered
    DomainFirst
    RoomFirst
    NeverClearedServes
    CaseMatters
    OneBitNeverMatters
    BeginIsEnough
    CaseKept
    OldNameKept
    NamedByAnEntry
    WholeRowsCleared
    BadDomainClears
    BadDomainNames
    BadDomainAtItsFault
    FinalDotRefused
    FinalDotKept
    FinalDotIsAnotherDomain
    TwoFinalDotsCleared
    TwoFinalDotsEntered
    NoAuthor
    NoSet
    NumbersByTheirLowOctet
    NumbersOfTheOther
    FlagsByTheirOctets
    FlagIsItsLowestBit
    OneIsTheOnlyFlag
    FlagsWrittenAsTheyCome
    RaisedRowWrittenAfresh
    SpareMatched
    SpareKept
    SpareCleared
    ListsNotRead
    AuthorNotJudged
    SetNotJudged
    PlacesFromOne
    OnePlaceMore
    MarkRead
    LowOctetFirst
    LastRecordMayBeCut
    LengthOfAnOctet
    SeventeenIdentifiers
    FifteenIdentifiers
    SecondSpfAllowed
    SpfAloneIsASecond
    UnlistedKindAllowed
    UnlistedOutcomeAllowed
    ThirdOutcomeRefused
    CutIdentifierLeftOut
    ShortIdentifierIsZeros
    EmptySetRefused
    BadDomainIsABadSet
    EverySetJudged
    ListsBeforeTheDomain
    ListsAfterTheRoom
    ListsFirst
    ClearedIsOneAlone
    ClearedIsItsLowestBit
    LengthPastTheDomainIsNone
    LengthByItsLowOctet
    ForgedDomainJudged
    ListInLowerCase
    EntryWritesTheList
    ClearedFlagKept
    NewListHasOctets
}

use Wrong::*;

/// The rules but for one.
pub struct Twin(pub Wrong);

impl Code for Twin {
    fn new_list(&self) -> List {
        List {
            cleared: 0,
            domain: [u8::from(self.is(NewListHasOctets)); 253],
            length: 0,
        }
    }

    fn clear(&self, list: List, domain: &[u8], rows: &mut [Row]) -> Changed {
        let (list, number, place) = self.cleared(list, domain, rows);
        let refusal = Refusal { number, place };
        Ok(ListChanged { list, refusal })
    }

    fn enter(&self, list: List, entered: Entered<'_>, rows: &mut [Row]) -> Changed {
        let number = self.entered(&list, entered, rows);
        let list = match self.0 {
            NamedByAnEntry if number == 0 => named(list, entered.domain),
            EntryWritesTheList if list.cleared != 0 => List { cleared: 1, ..list },
            _ => list,
        };
        let refusal = Refusal { number, place: 0 };
        Ok(ListChanged { list, refusal })
    }
}

fn named(mut list: List, domain: &[u8]) -> List {
    let length = domain.len().min(253);
    list.domain[..length].copy_from_slice(&domain[..length]);
    List {
        cleared: 1,
        length: length as u16,
        ..list
    }
}

impl Twin {
    fn is(&self, wrong: Wrong) -> bool {
        self.0 == wrong
    }

    fn cleared(&self, list: List, domain: &[u8], rows: &mut [Row]) -> (List, u8, usize) {
        let given = domain;
        let domain = match self.0 {
            TwoFinalDotsCleared => without_dot(without_dot(domain)),
            _ => without_dot(domain),
        };
        let refused = self.is(FinalDotRefused) && domain != given || domain.ends_with(b".");
        let bad = fault(domain).or(refused.then_some(domain.len()));
        if bad.is_none() || self.is(BadDomainClears) {
            let own = 256 + usize::from(self.is(OneRowMoreCleared));
            for row in rows.iter_mut().take(own) {
                row.count = 0;
                match self.0 {
                    WholeRowsCleared => *row = Row::default(),
                    SpareCleared => row.seen.spare = 0,
                    _ => {}
                }
            }
        }
        let lower = match self.0 {
            CaseKept => domain.to_vec(),
            FinalDotKept => given.to_ascii_lowercase(),
            _ => domain.to_ascii_lowercase(),
        };
        match bad {
            Some(_) if self.is(BadDomainNames) => (named(list, &lower), 11, 0),
            Some(place) if self.is(BadDomainAtItsFault) => (list, 11, place),
            Some(_) => (list, 11, 0),
            None if self.is(OldNameKept) && list.cleared != 0 => (list, 0, 0),
            None if self.is(ClearedFlagKept) && list.cleared != 0 => {
                let cleared = list.cleared;
                let list = named(list, &lower);
                (List { cleared, ..list }, 0, 0)
            }
            None => (named(list, &lower), 0, 0),
        }
    }

    fn entered(&self, list: &List, given: Entered<'_>, rows: &mut [Row]) -> u8 {
        let pass_or_fail = self.pass_or_fail(&given.entry.finding);
        let serves = self.serves(list, given.domain);
        let listed = self.listed(&given);
        let own = 256 + usize::from(self.is(OneRowMore)) - usize::from(self.is(OneRowFewer));
        let own = own.min(rows.len());
        let seen = self.seen(&given.entry);
        let chosen = self.chosen(&seen, &rows[..own]);
        match chosen {
            _ if self.is(ListsFirst) && !listed => 28,
            _ if self.is(DomainFirst) && !serves => 27,
            _ if !pass_or_fail => 14,
            _ if self.is(ListsBeforeTheDomain) && !listed => 28,
            None if self.is(RoomFirst) => 12,
            _ if !serves => 27,
            None if self.is(ListsAfterTheRoom) => 12,
            _ if !listed => 28,
            None => 12,
            Some(at) => self.raise(&mut rows[at], seen),
        }
    }

    /// A flag as it is read.
    fn flag(&self, octet: u8) -> u8 {
        match self.0 {
            FlagsByTheirOctets | FlagsWrittenAsTheyCome => octet,
            FlagIsItsLowestBit => octet & 1,
            OneIsTheOnlyFlag => u8::from(octet == 1),
            _ => u8::from(octet != 0),
        }
    }

    fn seen(&self, entry: &Entry) -> Seen {
        let (author, set) = match self.0 {
            NumbersOfTheOther => (entry.set, entry.author),
            _ => (entry.author, entry.set),
        };
        Seen {
            source: entry.source,
            disposition: entry.finding.disposition,
            dkim: self.flag(entry.finding.dkim),
            spf: self.flag(entry.finding.spf),
            spare: 0,
            author,
            set,
        }
    }

    fn pass_or_fail(&self, finding: &FindingNumbers) -> bool {
        let most = match self.0 {
            DeferEntered => 3,
            UnlistedEntered => 255,
            _ => 2,
        };
        let result = matches!(finding.result, 1 | 2) || self.is(NoneEntered) && finding.result == 0;
        result && finding.disposition <= most
    }

    /// The policy domain of a list that was cleared.
    fn named<'l>(&self, list: &'l List) -> Option<&'l [u8]> {
        let cleared = match self.0 {
            NeverClearedServes => true,
            ClearedIsOneAlone => list.cleared == 1,
            ClearedIsItsLowestBit => list.cleared & 1 == 1,
            _ => list.cleared != 0,
        };
        let length = match self.0 {
            LengthPastTheDomainIsNone if list.length > 253 => 0,
            LengthByItsLowOctet => usize::from(list.length & 255).min(253),
            _ => usize::from(list.length).min(253),
        };
        let own = &list.domain[..length];
        let judged = self.is(ForgedDomainJudged) && fault(own).is_some();
        (cleared && !judged).then_some(own)
    }

    fn serves(&self, list: &List, domain: &[u8]) -> bool {
        let Some(own) = self.named(list) else {
            return false;
        };
        let domain = match self.0 {
            FinalDotIsAnotherDomain => domain,
            TwoFinalDotsEntered => without_dot(without_dot(domain)),
            _ => without_dot(domain),
        };
        match self.0 {
            CaseMatters => own == domain,
            ListInLowerCase => own == domain.to_ascii_lowercase(),
            OneBitNeverMatters => {
                let folded = |text: &[u8]| text.iter().map(|o| o | 0x20).collect::<Vec<u8>>();
                folded(own) == folded(domain)
            }
            BeginIsEnough => {
                let begin = &domain[..own.len().min(domain.len())];
                own.eq_ignore_ascii_case(begin)
            }
            _ => own.eq_ignore_ascii_case(domain),
        }
    }

    fn matches(&self, row: &Row, seen: &Seen) -> bool {
        let skipped = if self.is(SourceByItsEnd) { 10 } else { 0 };
        let own = &row.seen;
        own.source[skipped..] == seen.source[skipped..]
            && (own.disposition == seen.disposition || self.is(NoDisposition))
            && (self.flag(own.dkim) == seen.dkim || self.is(NoDkim))
            && (self.flag(own.spf) == seen.spf || self.is(NoSpf))
            && (own.spare == 0 || !self.is(SpareMatched))
            && self.same_numbers(own, seen)
            && (row.count > 0 || self.is(FreeRowMatches))
            && (row.count < u32::MAX || !self.is(PastAFullMatch))
    }

    fn same_numbers(&self, own: &Seen, seen: &Seen) -> bool {
        let (author, set) = (own.author == seen.author, own.set == seen.set);
        match self.0 {
            NoAuthor => set,
            NoSet => author,
            NumbersByTheirLowOctet => {
                own.author as u8 == seen.author as u8 && own.set as u8 == seen.set as u8
            }
            _ => author && set,
        }
    }

    fn chosen(&self, seen: &Seen, rows: &[Row]) -> Option<usize> {
        let is_match = |row: &Row| self.matches(row, seen);
        let is_free = |row: &Row| row.count == 0;
        let free = rows.iter().position(is_free);
        let found = match self.0 {
            FreeRowBeforeItsMatch => rows.iter().position(|row| is_free(row) || is_match(row)),
            LastMatch => rows.iter().rposition(is_match),
            _ => rows.iter().position(is_match),
        };
        let full = found.is_some_and(|at| rows[at].count == u32::MAX);
        match full && self.is(FreeRowForAFullMatch) {
            true => free.or(found),
            false => found.or(free),
        }
    }

    fn raise(&self, row: &mut Row, seen: Seen) -> u8 {
        let limit = u32::MAX - u32::from(self.is(LimitOneLower));
        if row.count >= limit && !self.is(NoLimit) {
            return 13;
        }
        let before = *row;
        row.count = row.count.wrapping_add(1 + u32::from(self.is(RaisedByTwo)));
        if before.count == 0 || self.is(RaisedRowWrittenAfresh) {
            row.seen = seen;
        }
        match self.0 {
            FreeRowKeepsItsSource => row.seen.source = before.seen.source,
            SpareKept => row.seen.spare = before.seen.spare,
            _ => {}
        }
        0
    }
}
