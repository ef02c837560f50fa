//! One record.

use super::{Parser, Read, Row, Wrong::*};
use crate::beside::Member;

const FAIL: &str = "fail";
const PASS: &str = "pass";

impl Parser<'_> {
    pub fn record(&mut self, last: &Row) -> Read<Row> {
        let mut row = Row::default();
        if self.is(IdentifiersNotCleared) && last.identifiers.len() < 8 {
            row.identifiers.clone_from(&last.identifiers);
        }
        self.tag("<row><source_ip>")?;
        row.source = self.address()?;
        self.tag("</source_ip><count>")?;
        row.count = self.count()?;
        self.tag("</count><policy_evaluated><disposition>")?;
        self.evaluated(&mut row)?;
        self.tag("</policy_evaluated></row><identifiers><header_from>")?;
        row.author = self.domain(false)?;
        self.tag("</header_from></identifiers><auth_results>")?;
        self.results(&mut row)?;
        if self.is(SpfHandedOutFirst) {
            row.identifiers.sort_by_key(|own| own.kind);
        }
        if !self.is(RowBeforeItsEnd) {
            self.tag("</record>")?;
        }
        Ok(row)
    }

    fn evaluated(&mut self, row: &mut Row) -> Read<()> {
        let words = ["none", "quarantine", "reject", PASS];
        let word = self.word(&words)?;
        let number = words.iter().position(|own| *own == word).unwrap_or(0);
        row.disposition = match number {
            3 if !self.is(PassIsHandedOut) => 0,
            _ => number as u8,
        };
        self.tag("</disposition><dkim>")?;
        let none = word == "none" && !self.is(AlignedNoneTaken);
        let reject = word == "reject" && self.is(AlignedRejectRefused);
        let ways: &[&str] = if none || reject {
            &[FAIL]
        } else {
            &[FAIL, PASS]
        };
        row.dkim = self.word(ways)? == PASS;
        self.tag("</dkim><spf>")?;
        let needed = word == PASS && !row.dkim;
        let ways: &[&str] = match self.wrong {
            UnalignedPassTaken | UnalignedPassAtItsEnd if needed => &[FAIL, PASS],
            _ if needed => &[PASS],
            _ => ways,
        };
        row.spf = self.word(ways)? == PASS;
        self.only_if(!(self.is(UnalignedPassAtItsEnd) && needed && !row.spf))?;
        if self.is(FlagsSwapped) {
            (row.dkim, row.spf) = (row.spf, row.dkim);
        }
        self.tag("</spf>")
    }

    fn results(&mut self, row: &mut Row) -> Read<()> {
        loop {
            match self.tags(&self.ways(row))? {
                "</auth_results>" => return Ok(()),
                "<spf>" => self.spf(row)?,
                _ => self.dkim(row)?,
            }
        }
    }

    /// What can come behind these identifiers.
    fn ways(&self, row: &Row) -> Vec<&'static str> {
        let spf = row.identifiers.iter().any(|own| own.kind == 0);
        let most = match self.wrong {
            SeventeenIdentifiers => 17,
            FifteenIdentifiers => 15,
            _ => 16,
        };
        let room = row.identifiers.len() < most;
        let mut ways = vec!["</auth_results>"];
        if room && (!spf || self.is(DkimAfterSpf)) {
            ways.push("<dkim>");
        }
        if (room || self.is(SpfNotCounted)) && (!spf || self.is(TwoSpf)) {
            ways.push("<spf>");
        }
        ways
    }

    fn dkim(&mut self, row: &mut Row) -> Read<()> {
        self.tag("<domain>")?;
        let domain = self.domain(false)?;
        self.tag("</domain>")?;
        let mut ways = vec!["<selector>"];
        if self.is(SelectorOptional) {
            ways.push("<result>");
        }
        let mut selector = Vec::new();
        if self.tags(&ways)? == "<selector>" {
            selector = self.domain(true)?;
            self.tag("</selector><result>")?;
        }
        let outcome = self.outcome()?;
        self.tag("</result></dkim>")?;
        row.identifiers.push(Member {
            kind: 1,
            outcome,
            selector,
            domain,
        });
        Ok(())
    }

    fn spf(&mut self, row: &mut Row) -> Read<()> {
        self.tag("<domain>")?;
        let domain = self.domain(false)?;
        self.tag("</domain>")?;
        let mut ways = vec!["<result>"];
        if self.is(ScopeTaken) {
            ways.push("<scope>mfrom</scope><result>");
        }
        self.tags(&ways)?;
        let outcome = self.outcome()?;
        self.tag("</result></spf>")?;
        let last = row
            .identifiers
            .last()
            .filter(|_| self.is(SpfWithTheLastSelector));
        let selector = last.map_or(Vec::new(), |own| own.selector.clone());
        row.identifiers.push(Member {
            kind: 0,
            outcome,
            selector,
            domain,
        });
        Ok(())
    }

    fn outcome(&mut self) -> Read<u8> {
        let mut ways = vec![FAIL, PASS, "temperror"];
        if self.is(PermerrorTaken) {
            ways.push("permerror");
        }
        let word = self.word(&ways)?;
        let number = ways.iter().position(|own| *own == word).unwrap_or(0) as u8;
        Ok(match self.wrong {
            OutcomesSwapped if number < 2 => 1 - number,
            _ => number.min(2),
        })
    }
}
