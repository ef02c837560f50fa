//! The two lists as the twin reads them.

use super::{Twin, Wrong::*};
use crate::histories::code::Entered;
use evaluator::domain::fault;

/// An identifier's kind, outcome and domain.
type Member<'a> = (u8, u8, &'a [u8]);

impl Twin {
    /// Whether an entry's numbers are ones of the lists.
    pub fn listed(&self, given: &Entered<'_>) -> bool {
        let (authors, _) = self.records(given.lists.authors);
        let (sets, _) = self.records(given.lists.sets);
        let (author, set) = (given.entry.author as usize, given.entry.set as usize);
        let more = usize::from(self.is(OnePlaceMore));
        let at = |bodies: &[&[u8]], place: usize| match self.0 {
            PlacesFromOne => place > 0 && place <= bodies.len(),
            _ => place < bodies.len() + more,
        };
        let judged = |set: &&[u8]| self.takes(set);
        let set_fits = match self.0 {
            EverySetJudged => sets.iter().all(judged),
            _ => sets.get(set).is_none_or(judged),
        };
        match self.0 {
            ListsNotRead => true,
            AuthorNotJudged => at(&sets, set) && set_fits,
            SetNotJudged => at(&authors, author) && at(&sets, set),
            _ => at(&authors, author) && at(&sets, set) && set_fits,
        }
    }

    /// The bodies of the records of a text, and the octets behind them.
    fn records<'a>(&self, text: &'a [u8]) -> (Vec<&'a [u8]>, &'a [u8]) {
        let (mut bodies, mut rest) = (Vec::new(), text);
        while let [first, second, high, low, after @ ..] = rest {
            let length = match self.0 {
                LowOctetFirst => u16::from_be_bytes([*low, *high]),
                LengthOfAnOctet => u16::from(*low),
                _ => u16::from_be_bytes([*high, *low]),
            };
            let length = match self.0 {
                LastRecordMayBeCut => usize::from(length).min(after.len()),
                _ => usize::from(length),
            };
            let marked = first.is_ascii_uppercase() && second.is_ascii_uppercase();
            if length > after.len() || self.is(MarkRead) && !marked {
                break;
            }
            let (body, after) = after.split_at(length);
            bodies.push(body);
            rest = after;
        }
        (bodies, rest)
    }

    /// Whether a set is taken.
    fn takes(&self, set: &[u8]) -> bool {
        let (mut bodies, cut) = self.records(set);
        if !cut.is_empty() && !self.is(CutIdentifierLeftOut) {
            bodies.push(b"");
        }
        let members: Vec<Member> = bodies.iter().map(|body| self.member(body)).collect();
        let spf = members.iter().filter(|(kind, _, _)| *kind == 0).count();
        let most_spf = match self.0 {
            SecondSpfAllowed => 16,
            SpfAloneIsASecond => 0,
            _ => 1,
        };
        let most = match self.0 {
            SeventeenIdentifiers => 17,
            FifteenIdentifiers => 15,
            _ => 16,
        };
        let empty = self.is(EmptySetRefused) && members.is_empty();
        let fits = members.iter().all(|member| self.fits(member));
        !empty && fits && members.len() <= most && spf <= most_spf
    }

    fn member<'a>(&self, body: &'a [u8]) -> Member<'a> {
        let missing = if self.is(ShortIdentifierIsZeros) {
            0
        } else {
            255
        };
        let number = |place: usize| body.get(place).copied().unwrap_or(missing);
        let rest = body.get(3..).unwrap_or_default();
        let selector = usize::from(number(2)).min(rest.len());
        (number(0), number(1), &rest[selector..])
    }

    fn fits(&self, (kind, outcome, domain): &Member) -> bool {
        let kinds = if self.is(UnlistedKindAllowed) { 254 } else { 1 };
        let outcomes = match self.0 {
            UnlistedOutcomeAllowed => 254,
            ThirdOutcomeRefused => 1,
            _ => 2,
        };
        let bad = self.is(BadDomainIsABadSet) && fault(domain).is_some();
        *kind <= kinds && *outcome <= outcomes && !bad
    }
}
