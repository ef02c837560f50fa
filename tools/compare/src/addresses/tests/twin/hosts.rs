//! Policy domains, the hosts of entries, and what a confirming answer comes to.

use super::{Started, Twin, Wrong::*};
use evaluator::address::Outcome;
use evaluator::domain::Domain;
use evaluator::policy;
use evaluator::policy::entries::{check_entry, entries};
use evaluator::policy::parts::{trimmed, well_formed};
use evaluator::txt::{self, Answer, Status};

impl Twin {
    pub(super) fn policy(&self, text: &[u8]) -> Option<Domain> {
        let text = match text.strip_suffix(b".") {
            Some(_) if self.is(FinalDotOfThePolicyRefused) => return None,
            Some(rest) if self.is(TwoFinalDotsOfThePolicy) => rest,
            _ => text,
        };
        Domain::read(text).ok()
    }

    /// The host of an entry that 23 lets through.
    pub(super) fn host(&self, entry: &[u8]) -> Option<Domain> {
        let mut entry = match self.is(BlanksOfTheEntryRefused) {
            true => entry,
            false => trimmed(entry).1,
        };
        if self.is(ExclamationAllowed) {
            entry = entry.split(|octet| *octet == b'!').next()?;
        }
        if entry.contains(&b',') && !self.is(CommaAllowed) {
            return None;
        }
        check_entry(entry).ok()?;
        let colon = entry.iter().position(|octet| *octet == b':')?;
        let (scheme, mut rest) = (entry.get(..colon)?, entry.get(colon + 1..)?);
        let fits = match self.wrong {
            AnyScheme => true,
            SchemeInOneCase => scheme == b"mailto",
            _ => scheme.eq_ignore_ascii_case(b"mailto"),
        };
        if self.is(HostToTheQuestionMark) {
            rest = rest.split(|octet| *octet == b'?').next()?;
        }
        let at = match self.is(FirstAt) {
            true => rest.iter().position(|octet| *octet == b'@')?,
            false => rest.iter().rposition(|octet| *octet == b'@')?,
        };
        let host = rest.get(at + 1..)?;
        let refused = match self.wrong {
            EmptyLocalPartRefused => at == 0,
            FinalDotOfTheHostRefused => host.ends_with(b"."),
            _ => false,
        };
        Domain::read(host).ok().filter(|_| fits && !refused)
    }

    /// What the answer for the confirming name comes to.
    pub(super) fn confirmation(&self, started: &Started, answer: Answer) -> Outcome {
        let texts = match answer.status {
            Status::Error if self.is(ErrorAtTheNameIsNo) => return Outcome::No,
            Status::Error => return Outcome::NotKnown,
            Status::None => Vec::new(),
            Status::Records => txt::texts(answer.bytes).unwrap_or_default(),
        };
        let mut records = self.records(&texts);
        match self.wrong {
            NoRecordIsNotKnown if records.is_empty() => return Outcome::NotKnown,
            TwoRecordsAreNone if records.len() > 1 => return Outcome::No,
            FirstRecordAlone => records.truncate(1),
            LastRecordFirst => records.reverse(),
            _ => {}
        }
        if records.is_empty() {
            return Outcome::No;
        }
        let by_hosts = |(place, text): &(usize, &[u8])| self.by_hosts(started, *place, text);
        let judged: Vec<Outcome> = records.iter().filter_map(by_hosts).collect();
        if self.is(EveryRecordIsJudged) && judged.contains(&Outcome::No) {
            return Outcome::No;
        }
        judged.first().copied().unwrap_or(Outcome::Confirmed)
    }

    /// The policy records, each with its place in the scratch.
    fn records<'t>(&self, texts: &'t [Vec<u8>]) -> Vec<(usize, &'t [u8])> {
        let (mut records, mut place) = (Vec::new(), 0);
        for text in texts {
            let settings = policy::read(text);
            let counts = match self.wrong {
                RepeatsConfirm => well_formed(text).is_some(),
                UsableRecordsAlone => settings.is_some_and(|own| own.usable().is_some()),
                _ => settings.is_some(),
            };
            if counts {
                records.push((place, text.as_slice()));
            }
            if counts || !self.is(PlaceOfRecordsAlone) {
                place += text.len();
            }
        }
        records
    }

    /// Nothing if the record has no host.
    fn by_hosts(&self, started: &Started, place: usize, text: &[u8]) -> Option<Outcome> {
        let (begin, length) = policy::rua_part(text);
        let rua = text.get(begin..begin + length)?;
        let hosts: Vec<Domain> = entries(rua).filter_map(|own| self.host(own)).collect();
        let Some(listed) = hosts.first() else {
            return self.is(RecordWithoutHostsIsNo).then_some(Outcome::No);
        };
        let first = match self.is(FirstHostOfTheList) {
            true => listed,
            false => &started.host,
        };
        let is_first = |own: &Domain| match self.is(HostsBelowAreTheSame) {
            true => own.octets().ends_with(first.octets()),
            false => own == first,
        };
        let same = match self.wrong {
            OneSuchHostIsEnough => hosts.iter().any(is_first),
            LastHostAlone => hosts.last().is_some_and(is_first),
            _ => hosts.iter().all(is_first),
        };
        let begin = match self.is(PlaceInItsText) {
            true => begin,
            false => place + begin,
        };
        let length = match self.is(PlaceOfTheFirstEntry) {
            true => entries(rua).next().unwrap_or_default().len(),
            false => length,
        };
        match self.wrong {
            NothingReplaces if same => Some(Outcome::Confirmed),
            _ if same => Some(Outcome::Replaced { begin, length }),
            OtherHostKeepsTheAddress => Some(Outcome::Confirmed),
            OtherHostIsNotKnown => Some(Outcome::NotKnown),
            OtherHostIsPassedOver => None,
            _ => Some(Outcome::No),
        }
    }
}
