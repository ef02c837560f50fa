//! The text of a report.

use super::judged::Read;
use super::{without_dot, Twin, Wrong::*};
use records::code::RecordNumbers;

const POLICIES: [&str; 3] = ["none", "quarantine", "reject"];
const ABSENT: u8 = 3;

/// An element of a text.
pub fn element(name: &str, content: &str) -> String {
    format!("<{name}>{content}</{name}>")
}

impl Twin {
    pub fn text(&self, day: &Read) -> Vec<u8> {
        let (declaration, end) = match self.0 {
            NoDeclaration => ("", ""),
            LineEndAfterTheDeclaration => ("<?xml version=\"1.0\" encoding=\"UTF-8\"?>\n", ""),
            LineEndAtTheEnd => ("<?xml version=\"1.0\" encoding=\"UTF-8\"?>", "\n"),
            _ => ("<?xml version=\"1.0\" encoding=\"UTF-8\"?>", ""),
        };
        let root = match self.0 {
            ApostrophesAtTheRoot => "<feedback xmlns='urn:ietf:params:xml:ns:dmarc-2.0'>",
            NoNamespace => "<feedback>",
            _ => "<feedback xmlns=\"urn:ietf:params:xml:ns:dmarc-2.0\">",
        };
        let version = if self.is(VersionWritten) {
            "<version>1.0</version>"
        } else {
            ""
        };
        let rows = day.rows.iter();
        let records: String = rows
            .map(|row| element("record", &self.record(day, row)))
            .collect();
        let content = [
            version,
            &element("report_metadata", &self.metadata(day)),
            &element("policy_published", &self.published(day)),
            &records,
        ]
        .concat();
        let content = match self.0 {
            BlanksBetweenElements => content.replace("><", "> <"),
            _ => content,
        };
        format!("{declaration}{root}{content}</feedback>{end}").into_bytes()
    }

    /// A text with its entities.
    pub fn escaped(&self, text: &[u8]) -> String {
        let octets = text.iter().enumerate();
        let escaped = octets.map(|(at, octet)| match octet {
            b'&' if self.is(AmpersandKept) => "&".to_string(),
            b'&' if self.is(EntityKept) && text[at..].starts_with(b"&amp;") => "&".to_string(),
            b'&' => "&amp;".to_string(),
            b'<' if !self.is(LessKept) => "&lt;".to_string(),
            b'>' if !self.is(GreaterKept) => "&gt;".to_string(),
            b'"' if self.is(QuotesEscaped) => "&quot;".to_string(),
            _ => char::from(*octet).to_string(),
        });
        escaped.collect()
    }

    fn metadata(&self, day: &Read) -> String {
        let by = &day.asked.reporter;
        let (organization, email) = (self.escaped(by.organization), self.escaped(by.email));
        let contact = match by.contact.is_empty() && !self.is(EmptyContactWritten) {
            _ if self.is(ContactLeftOut) => String::new(),
            true => String::new(),
            false => element("extra_contact_info", &self.escaped(by.contact)),
        };
        let id = String::from_utf8_lossy(by.id).into_owned();
        let id = if self.is(IdInLowerCase) {
            id.to_lowercase()
        } else {
            id
        };
        let (begin, end) = match self.0 {
            TimesSwapped => (by.end, by.begin),
            _ => (by.begin, by.end),
        };
        let times = element("begin", &begin.to_string()) + &element("end", &end.to_string());
        let mut parts = [
            element("org_name", &organization),
            element("email", &email),
            contact,
            element("report_id", &id),
            element("date_range", &times),
        ];
        match self.0 {
            ContactBeforeEmail => parts.swap(1, 2),
            IdAfterTheTimes => parts.swap(3, 4),
            _ => {}
        }
        parts.concat()
    }

    /// A domain as it is written, where it is not written as it stands.
    pub fn domain(&self, text: &[u8], as_it_stands: bool) -> String {
        let own = without_dot(text);
        let own = if as_it_stands {
            own.to_vec()
        } else {
            own.to_ascii_lowercase()
        };
        String::from_utf8_lossy(&own).into_owned()
    }

    /// p, sp and np, as numbers that are listed or absent.
    fn policies(&self, own: &RecordNumbers) -> [u8; 3] {
        let sp = own.sp <= ABSENT || self.is(InvalidSpIsUsable);
        let usable = own.p < ABSENT && sp && own.np <= ABSENT;
        let listed = |number: u8| number.min(ABSENT);
        let policies = match (usable, self.0) {
            (true, _) | (false, UnusableIsWrittenAsItIs) => [own.p, own.sp, own.np].map(listed),
            (false, UnusablePIsNoneAlone) => [0, listed(own.sp), listed(own.np)],
            (false, _) => [0, 0, 0],
        };
        let step = |number: u8| match number {
            1 | 2 if own.t == 1 && self.is(TestingStepsThePolicy) => number - 1,
            _ => number,
        };
        policies.map(step)
    }

    fn published(&self, day: &Read) -> String {
        let own = &day.asked.numbers;
        let [p, sp, np] = self.policies(own);
        let sp = if self.is(AbsentSpIsP) && sp == ABSENT {
            p
        } else {
            sp
        };
        let np = if self.is(AbsentNpIsSp) && np == ABSENT {
            sp
        } else {
            np
        };
        let policy = |name: &str, number: u8| {
            let word = POLICIES.get(usize::from(number));
            word.map_or(String::new(), |word| element(name, word))
        };
        let (adkim, aspf) = match self.0 {
            ModesSwapped => (own.aspf, own.adkim),
            _ => (own.adkim, own.aspf),
        };
        let testing = own.t == 1 || own.t > 1 && self.is(UnlistedTestingIsYes);
        let mut parts = [
            element("domain", &self.lists_domain(day)),
            policy("p", p),
            policy("sp", sp),
            policy("np", np),
            self.mode(own, "adkim", adkim),
            self.mode(own, "aspf", aspf),
            element("testing", if testing { "y" } else { "n" }),
        ];
        match self.0 {
            TestingBeforeTheModes => parts[4..].rotate_right(1),
            NpBeforeSp => parts.swap(2, 3),
            _ => {}
        }
        parts.concat()
    }

    fn mode(&self, own: &RecordNumbers, name: &str, number: u8) -> String {
        let usable = own.p < ABSENT && own.sp <= ABSENT && own.np <= ABSENT;
        let kept = usable || !self.is(UnusableModesAreDefaults);
        let unlisted = number > 1 && self.is(UnlistedModeIsStrict);
        match (number == 1 || unlisted) && kept {
            true => element(name, "s"),
            false if self.is(DefaultsLeftOut) => String::new(),
            false => element(name, "r"),
        }
    }

    pub fn lists_domain(&self, day: &Read) -> String {
        let own = day.domain.clone().unwrap_or_default();
        self.domain(&own, self.is(ListsDomainAsItStands))
    }
}
