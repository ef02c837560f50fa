//! The record of a row.

use super::judged::Read;
use super::text::element;
use super::{Row, Twin, Wrong::*};
use evaluator::lists::{Meant, Member};
use evaluator::message::{Kind, Outcome};

impl Twin {
    pub fn record(&self, day: &Read, (row, meant): &(Row, Option<Meant>)) -> String {
        let Some(meant) = meant else {
            return String::new();
        };
        let evaluated = element("policy_evaluated", &self.evaluated(row));
        let count = match self.0 {
            CountIsSigned => (row.count as i32).to_string(),
            CountOfSixteenBits => (row.count as u16).to_string(),
            _ => row.count.to_string(),
        };
        let source = element("source_ip", &self.source(&row.seen.source));
        let content = [source, element("count", &count), evaluated].concat();
        let author = match self.0 {
            AuthorIsTheListsDomain => self.lists_domain(day),
            _ => self.domain(meant.author, self.is(AuthorAsItStands)),
        };
        let from = match self.0 {
            EnvelopeFromWritten => element("envelope_from", &author),
            _ => String::new(),
        };
        let author = element("header_from", &author) + &from;
        let results = match meant.set.is_empty() {
            true if self.is(EmptySetClosedAtOnce) => "<auth_results/>".to_string(),
            true if self.is(EmptySetLeftOut) => String::new(),
            _ => element("auth_results", &self.results(meant)),
        };
        [
            element("row", &content),
            element("identifiers", &author),
            results,
        ]
        .concat()
    }

    fn flag(&self, octet: u8) -> bool {
        match self.0 {
            FlagIsItsLowestBit => octet & 1 == 1,
            OneIsTheOnlyFlag => octet == 1,
            _ => octet != 0,
        }
    }

    fn evaluated(&self, row: &Row) -> String {
        let (dkim, spf) = (self.flag(row.seen.dkim), self.flag(row.seen.spf));
        let (dkim, spf) = if self.is(FlagsSwapped) {
            (spf, dkim)
        } else {
            (dkim, spf)
        };
        let aligned = match self.0 {
            PassForBothAlone => dkim && spf,
            AlignedNoneIsNone => false,
            _ => dkim || spf,
        };
        let disposition = match row.seen.disposition {
            2 if aligned && self.is(AlignedRejectIsPass) => "pass",
            1 => "quarantine",
            2 => "reject",
            0 if aligned => "pass",
            0 => "none",
            _ if self.is(UnlistedDispositionIsReject) => "reject",
            _ if aligned && !self.is(UnlistedDispositionIsNeverPass) => "pass",
            _ => "none",
        };
        let word = |flag: bool| if flag { "pass" } else { "fail" };
        let reason = if self.is(ReasonWritten) {
            "<reason></reason>"
        } else {
            ""
        };
        [
            element("disposition", disposition),
            element("dkim", word(dkim)),
            element("spf", word(spf)),
            reason.to_string(),
        ]
        .concat()
    }

    fn source(&self, source: &[u8; 16]) -> String {
        let zeros = source[..10].iter().all(|octet| *octet == 0);
        let dotted = match self.0 {
            MappedAsGroups => false,
            CompatibleIsDotted => zeros && matches!(source[10..12], [255, 255] | [0, 0]),
            MappedByItsLastOctets => source[10..12] == [255, 255],
            _ => zeros && source[10..12] == [255, 255],
        };
        let octet = |octet: &u8| match self.0 {
            OctetsWithLeadingZeros => format!("{octet:03}"),
            _ => octet.to_string(),
        };
        let group = |pair: &[u8]| {
            let group = u16::from(pair[0]) << 8 | u16::from(pair[1]);
            match self.0 {
                GroupsWithLeadingZeros => format!("{group:04x}"),
                GroupsInUpperCase => format!("{group:X}"),
                _ => format!("{group:x}"),
            }
        };
        let text = match dotted {
            true => source[12..]
                .iter()
                .map(octet)
                .collect::<Vec<String>>()
                .join("."),
            false => source
                .chunks(2)
                .map(group)
                .collect::<Vec<String>>()
                .join(":"),
        };
        match self.0 {
            GroupsShortened => text.replacen(":0:0:", "::", 1),
            _ => text,
        }
    }

    fn results(&self, meant: &Meant) -> String {
        let mut members: Vec<&Member> = meant.set.iter().collect();
        let dkim = |member: &&Member| member.kind == Kind::Dkim;
        match self.0 {
            SpfInItsPlace => {}
            SpfFirst => members.sort_by_key(dkim),
            DkimReversed => {
                members.reverse();
                members.sort_by_key(|member| !dkim(member));
            }
            _ => members.sort_by_key(|member| !dkim(member)),
        }
        members.iter().map(|member| self.result(member)).collect()
    }

    fn result(&self, member: &Member) -> String {
        let outcome = match member.outcome {
            Outcome::NotPassing if self.is(NotPassingIsNone) => "none",
            Outcome::TemporaryError if self.is(TemporaryErrorIsFail) => "fail",
            Outcome::NotPassing => "fail",
            Outcome::Pass => "pass",
            Outcome::TemporaryError => "temperror",
        };
        let domain = element("domain", &self.domain(member.domain, false));
        let result = element("result", outcome);
        let selector = match self.0 {
            SelectorsFinalDotKept => String::from_utf8_lossy(member.selector).to_lowercase(),
            _ => self.domain(member.selector, self.is(SelectorAsItStands)),
        };
        let selector = element("selector", &selector);
        let scope = if self.is(ScopeWritten) {
            "<scope>mfrom</scope>"
        } else {
            ""
        };
        match member.kind {
            Kind::Dkim if self.is(ResultBeforeSelector) => {
                element("dkim", &[domain, result, selector].concat())
            }
            Kind::Dkim => element("dkim", &[domain, selector, result].concat()),
            Kind::Spf if self.is(SpfSelectorWritten) => {
                element("spf", &[domain, selector, result].concat())
            }
            Kind::Spf => element("spf", &format!("{domain}{scope}{result}")),
        }
    }
}
