//! Texts, ids, numbers and domains.

use super::{Parser, Read, Stop, Wrong::*};

const ENTITIES: &[&str] = &["&amp;", "&lt;", "&gt;"];
const MORE_ENTITIES: &[&str] = &["&amp;", "&lt;", "&gt;", "&quot;"];
const FEWER_ENTITIES: &[&str] = &["&amp;", "&lt;"];

impl Parser<'_> {
    pub fn text(&mut self, may_be_empty: bool) -> Read<()> {
        let most = match self.wrong {
            TextLimitOneLower => 4095,
            TextLimitOneHigher => 4097,
            _ => 4096,
        };
        let mut octets = 0;
        while self.peek()? != b'<' {
            self.only_if(octets < most || self.is(TextLimitAtItsEnd))?;
            let begin = self.at;
            self.character()?;
            octets += match self.wrong {
                TextLimitAfterEntities => self.at - begin,
                _ => 1,
            };
        }
        self.only_if(octets > 0 || may_be_empty)?;
        self.only_if(octets <= most || !self.is(TextLimitAtItsEnd))
    }

    /// An octet of a text, or the entity of one.
    fn character(&mut self) -> Read<()> {
        let fits = match self.peek()? {
            b'&' if !self.is(AmpersandTaken) => return self.entity(),
            b'>' => self.is(GreaterTaken),
            b'~' => !self.is(TildeRefused),
            127 => self.is(DeleteTaken),
            b'\t' => self.is(TabTaken),
            octet => (32..=126).contains(&octet),
        };
        self.only_if(fits)?;
        self.at += 1;
        Ok(())
    }

    fn entity(&mut self) -> Read<()> {
        let begin = self.at;
        let ways = match self.wrong {
            QuoteEntityTaken => MORE_ENTITIES,
            GreaterEntityRefused => FEWER_ENTITIES,
            _ => ENTITIES,
        };
        if self.is(CutLosesTheEntity) {
            let cut = self
                .cuts
                .iter()
                .find(|cut| (begin + 1..begin + 4).contains(cut));
            if let Some(cut) = cut {
                self.at = *cut;
                return Ok(());
            }
        }
        self.word(ways).map(|_| ())
    }

    pub fn id(&mut self) -> Read<()> {
        let most = match self.wrong {
            IdOf64Refused => 63,
            IdOf65Taken => 65,
            _ => 64,
        };
        let mut octets = 0;
        while self.peek()? != b'<' {
            let fits = match self.peek()? {
                b'-' => self.is(HyphenInIdTaken),
                octet if self.is(CapitalInIdRefused) && octet.is_ascii_uppercase() => false,
                octet => octet.is_ascii_alphanumeric(),
            };
            self.only_if(fits && octets < most)?;
            self.at += 1;
            octets += 1;
        }
        self.only_if(octets > 0 || self.is(EmptyIdTaken))
    }

    pub fn time(&mut self) -> Read<u128> {
        let most = match self.wrong {
            TimesOf63Bits => i64::MAX as u128,
            _ => u128::from(u64::MAX),
        };
        self.number(0, most)
    }

    pub fn count(&mut self) -> Read<u32> {
        let most = match self.wrong {
            CountOf31Bits => i32::MAX as u128,
            CountOf64Bits => u128::from(u64::MAX),
            _ => u128::from(u32::MAX),
        };
        let least = u128::from(!self.is(CountZeroTaken));
        self.number(least, most).map(|count| count as u32)
    }

    fn number(&mut self, least: u128, most: u128) -> Read<u128> {
        let begin = self.at;
        let mut value: Option<u128> = None;
        while value.is_none() || self.peek()? != b'<' {
            if self.is(CutLosesTheNumber) && self.cut_behind(begin) {
                value = Some(1);
            }
            let octet = self.peek()?;
            self.only_if(octet.is_ascii_digit())?;
            let digit = u128::from(octet - b'0');
            if value == Some(0) && !self.is(LeadingZerosTaken) {
                let number = if self.is(LeadingZeroIsOver) { 21 } else { 20 };
                return Err(Stop::Refused(number, self.at));
            }
            self.only_if(value.is_some() || digit >= least)?;
            let next = value.unwrap_or(0).saturating_mul(10).saturating_add(digit);
            value = Some(self.fitting(next, most, begin)?);
            self.at += 1;
        }
        let value = value.unwrap_or(0);
        match value > most {
            true => Err(Stop::Refused(21, self.at)),
            false => Ok(value),
        }
    }

    /// A value within its width, or the refusal of its last digit.
    fn fitting(&self, value: u128, most: u128, begin: usize) -> Read<u128> {
        if value <= most || self.is(OverAtItsEnd) {
            return Ok(value);
        }
        match self.wrong {
            OverWraps => Ok(value % (most + 1)),
            OverIsOutside => Err(Stop::Refused(20, self.at)),
            OverAtItsFirstDigit => Err(Stop::Refused(21, begin)),
            _ => Err(Stop::Refused(21, self.at)),
        }
    }

    pub fn domain(&mut self, selector: bool) -> Read<Vec<u8>> {
        let most = match self.wrong {
            DomainOf254Taken => 254,
            DomainOf253Refused => 252,
            DomainLimitAtItsEnd => usize::MAX,
            _ => 253,
        };
        let (begin, mut label) = (self.at, 0);
        while self.peek()? != b'<' {
            if self.is(CutLosesTheLabel) && self.cut_behind(begin) && label > 0 {
                label = 1;
            }
            let (octet, octets) = (self.peek()?, self.at - begin);
            let room = match octet {
                b'.' if !self.is(DotAtTheLimitTaken) => octets + 1 < most,
                _ => octets < most,
            };
            self.only_if(room)?;
            label = match octet {
                b'.' => self.dot(label, selector)?,
                _ => self.letter(octet, label)?,
            };
            self.at += 1;
        }
        let octets = self.at - begin;
        self.only_if(label > 0 || octets > 0 && self.is(FinalDotTaken))?;
        self.only_if(octets <= 253 || most > 253)?;
        self.only_if(octets <= 253 || !self.is(DomainLimitAtItsEnd))?;
        Ok(self.text[begin..self.at].to_vec())
    }

    fn dot(&self, label: usize, selector: bool) -> Read<usize> {
        self.only_if(label > 0 || self.is(EmptyLabelsTaken))?;
        self.only_if(!(selector && self.is(SelectorOfOneLabel)))?;
        Ok(0)
    }

    /// The octets of a label with one more.
    fn letter(&self, octet: u8, label: usize) -> Read<usize> {
        let most = match self.wrong {
            LabelOf64Taken => 64,
            LabelOf63Refused => 62,
            _ => 63,
        };
        let fits = match octet {
            b'a'..=b'z' | b'0'..=b'9' => true,
            b'-' => label > 0 || !self.is(HyphenFirstRefused),
            b'_' => !self.is(UnderscoreRefused),
            b'A'..=b'Z' => self.is(CapitalsTaken),
            _ => false,
        };
        self.only_if(fits && label < most)?;
        Ok(label + 1)
    }
}
