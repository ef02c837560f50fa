//! What stands before the records.

use super::{Parser, Read, Stop, Wrong::*};

const DECLARATION: &str = r#"<?xml version="1.0" encoding="UTF-8"?>"#;
const ROOT: &str = r#"<feedback xmlns="urn:ietf:params:xml:ns:dmarc-2.0">"#;
const APOSTROPHES: &str = "<feedback xmlns='urn:ietf:params:xml:ns:dmarc-2.0'>";

impl Parser<'_> {
    pub fn head(&mut self) -> Read<()> {
        self.root()?;
        let ways: &[&str] = match self.wrong {
            VersionTaken => &[
                "<report_metadata>",
                "<version>1.0</version><report_metadata>",
            ],
            _ => &["<report_metadata>"],
        };
        self.tags(ways)?;
        self.tag("<org_name>")?;
        self.text(self.is(EmptyTextTaken))?;
        self.tag("</org_name><email>")?;
        self.text(self.is(EmptyTextTaken))?;
        self.tag("</email>")?;
        self.contact()?;
        self.id()?;
        self.tag("</report_id><date_range><begin>")?;
        let begin = self.time()?;
        self.tag("</begin><end>")?;
        self.end(begin)?;
        self.tag("</end></date_range></report_metadata><policy_published><domain>")?;
        self.domain(false)?;
        self.tag("</domain><p>")?;
        self.policies()?;
        self.tag("</policy_published>")
    }

    fn root(&mut self) -> Read<()> {
        let mut ways = vec![DECLARATION];
        if self.is(DeclarationOptional) {
            ways.push(ROOT);
        }
        if self.tags(&ways)? == ROOT {
            return Ok(());
        }
        if self.is(OtherNamespaceTaken) {
            self.tags(&["<feedback>", ROOT]).map(|_| ())
        } else if self.is(ApostrophesTaken) {
            self.tags(&[ROOT, APOSTROPHES]).map(|_| ())
        } else {
            self.tag(ROOT)
        }
    }

    fn contact(&mut self) -> Read<()> {
        let (contact, id) = ("<extra_contact_info>", "<report_id>");
        let ways = match self.wrong {
            ContactNeeded => vec![contact],
            ContactRefused => vec![id],
            _ => vec![contact, id],
        };
        if self.tags(&ways)? == contact {
            self.text(self.is(EmptyContactTaken))?;
            self.tag("</extra_contact_info><report_id>")?;
        }
        Ok(())
    }

    /// An end, which is not below begin.
    fn end(&mut self, begin: u128) -> Read<()> {
        let first = self.at;
        let end = self.time()?;
        let below = match self.wrong {
            EndBelowBeginTaken => false,
            EndEqualToBeginRefused => end <= begin,
            EndBelowBeginOfTheLast => end as u32 <= begin as u32 && end < begin,
            _ => end < begin,
        };
        let place = match self.wrong {
            EndBelowBeginAtItsFirstDigit => first,
            EndBelowBeginBehindItsTag => self.at + 1,
            _ => self.at,
        };
        match below {
            true => Err(Stop::Refused(20, place)),
            false => Ok(()),
        }
    }

    fn policies(&mut self) -> Read<()> {
        const POLICIES: &[&str] = &["none", "quarantine", "reject"];
        self.word(POLICIES)?;
        self.tag("</p>")?;
        let first = match self.wrong {
            SpNeeded => vec!["<sp>"],
            _ => vec!["<sp>", "<np>", "<adkim>"],
        };
        let mut next = self.tags(&first)?;
        let mut read = Vec::new();
        while next != "<adkim>" {
            self.word(POLICIES)?;
            self.tag(&next.replace('<', "</"))?;
            read.push(next);
            let mut ways = vec!["<adkim>"];
            if !read.contains(&"<np>") {
                ways.push("<np>");
            }
            if self.is(NpBeforeSpTaken) && !read.contains(&"<sp>") {
                ways.push("<sp>");
            }
            next = self.tags(&ways)?;
        }
        self.mode()?;
        self.tag("</adkim><aspf>")?;
        self.mode()?;
        self.tag("</aspf>")?;
        self.testing()
    }

    fn mode(&mut self) -> Read<()> {
        let ways: &[&str] = match self.wrong {
            ModeInCapitals => &["r", "s", "R", "S"],
            _ => &["r", "s"],
        };
        self.word(ways).map(|_| ())
    }

    fn testing(&mut self) -> Read<()> {
        if self.is(TestingOptional) && self.text[self.at..].starts_with(b"</policy_published>") {
            return Ok(());
        }
        self.tag("<testing>")?;
        self.word(&["n", "y"])?;
        self.tag("</testing>")
    }
}
