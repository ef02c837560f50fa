//! Values of the form, read octet by octet. Each says of an octet whether it can stand
//! there, and is left as it is by one that cannot; and whether the value can end there.

use super::choice::{Choice, Ways};
use super::row::Name;
use super::{Fault, OUTSIDE};
use crate::aggregate::MOST_TEXT_OCTETS;
use crate::domain::{MOST_LABEL_OCTETS, MOST_OCTETS};
use crate::report::MOST_ID_OCTETS;

/// "21 a digit that takes a begin, end or count over its width"
const OVER: u8 = 21;
/// "`&`, `<` and `>` in texts are written as entities"
const ENTITIES: Ways<()> = &[("amp;", ()), ("lt;", ()), ("gt;", ())];

/// Nothing where something holds.
fn only_if(holds: bool) -> Result<(), Fault> {
    holds.then_some(()).ok_or(OUTSIDE)
}

/// A text of the reporter.
#[derive(Clone, Debug, Default)]
pub struct Text {
    /// Counted before entities.
    octets: usize,
    entity: Option<Choice<()>>,
}

impl Text {
    pub fn may_end(&self) -> bool {
        self.octets > 0 && self.entity.is_none()
    }

    pub fn take(&mut self, octet: u8) -> Result<(), Fault> {
        if let Some(entity) = &mut self.entity {
            if entity.take(octet)?.is_some() {
                self.entity = None;
                self.octets += 1;
            }
            return Ok(());
        }
        only_if(self.octets < MOST_TEXT_OCTETS)?;
        match octet {
            b'&' => self.entity = Some(Choice::of(ENTITIES, |()| true)),
            b'<' | b'>' => return Err(OUTSIDE),
            32..=126 => self.octets += 1,
            _ => return Err(OUTSIDE),
        }
        Ok(())
    }
}

/// A report id.
#[derive(Clone, Debug, Default)]
pub struct Id {
    octets: usize,
}

impl Id {
    pub fn may_end(&self) -> bool {
        self.octets > 0
    }

    pub fn take(&mut self, octet: u8) -> Result<(), Fault> {
        only_if(octet.is_ascii_alphanumeric() && self.octets < MOST_ID_OCTETS)?;
        self.octets += 1;
        Ok(())
    }
}

/// A decimal number "without leading zeros".
#[derive(Clone, Debug)]
pub struct Number {
    value: Option<u64>,
    least: u64,
    most: u64,
}

impl Number {
    pub fn of(least: u64, most: u64) -> Number {
        Number {
            value: None,
            least,
            most,
        }
    }

    pub fn value(&self) -> u64 {
        self.value.unwrap_or(0)
    }

    pub fn may_end(&self) -> bool {
        self.value.is_some()
    }

    pub fn take(&mut self, octet: u8) -> Result<(), Fault> {
        only_if(octet.is_ascii_digit() && self.value != Some(0))?;
        let digit = u64::from(octet - b'0');
        only_if(self.value.is_some() || digit >= self.least)?;
        let value = self.value().checked_mul(10);
        let value = value.and_then(|value| value.checked_add(digit));
        let value = value.filter(|value| *value <= self.most);
        self.value = Some(value.ok_or(OVER)?);
        Ok(())
    }
}

/// A domain by "01's rule", "in lower case".
#[derive(Clone, Debug, Default)]
pub struct Labels {
    /// Octets of the last label.
    last: usize,
}

impl Labels {
    pub fn may_end(&self) -> bool {
        self.last > 0
    }

    /// One octet more of the name that was read so far.
    pub fn take(&mut self, octet: u8, name: &mut Name) -> Result<(), Fault> {
        let octets = name.octets().len();
        match octet {
            // Behind a dot there is room for a label.
            b'.' => {
                only_if(self.last > 0 && octets + 1 < MOST_OCTETS)?;
                self.last = 0;
            }
            b'a'..=b'z' | b'0'..=b'9' | b'-' | b'_' => {
                only_if(self.last < MOST_LABEL_OCTETS && octets < MOST_OCTETS)?;
                self.last += 1;
            }
            _ => return Err(OUTSIDE),
        }
        name.push(octet);
        Ok(())
    }
}
