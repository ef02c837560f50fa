//! A source address: "mapped addresses dotted, others as eight lower-case hexadecimal
//! groups", "numbers and groups without leading zeros".

use super::{Fault, OUTSIDE};

const OCTETS: usize = 4;
const GROUPS: usize = 8;
const MOST_GROUP_DIGITS: usize = 4;
/// What stands before the octets of a mapped address.
const MAPPED: [u16; 6] = [0, 0, 0, 0, 0, 0xffff];

/// The first number can be an octet and a group at once.
#[derive(Clone, Copy, Debug, Default, PartialEq, Eq)]
enum Form {
    #[default]
    Either,
    Dotted,
    Grouped,
}

#[derive(Clone, Debug, Default)]
pub struct Address {
    form: Form,
    /// Numbers that ended, and how many.
    numbers: [u16; GROUPS],
    ended: usize,
    open: Digits,
}

/// The digits of a number that is read.
#[derive(Clone, Copy, Debug, Default)]
struct Digits {
    count: usize,
    /// As a group.
    group: u16,
    /// As an octet, where they are decimal digits of one.
    octet: Option<u8>,
}

impl Digits {
    /// One more.
    fn and(self, digit: u8) -> Digits {
        let before = if self.count == 0 { Some(0) } else { self.octet };
        let decimal = Some(digit).filter(|digit| *digit < 10);
        let tens = before.and_then(|octet| octet.checked_mul(10));
        Digits {
            count: self.count + 1,
            group: self.group << 4 | u16::from(digit),
            octet: tens
                .zip(decimal)
                .and_then(|(tens, digit)| tens.checked_add(digit)),
        }
    }
}

impl Address {
    pub fn may_end(&self) -> bool {
        let last = match self.form {
            Form::Either => false,
            Form::Dotted => self.ended + 1 == OCTETS,
            Form::Grouped => self.ended + 1 == GROUPS,
        };
        last && self.open.count > 0
    }

    pub fn take(&mut self, octet: u8) -> Result<(), Fault> {
        let taken = match octet {
            b'0'..=b'9' => self.digit(octet - b'0'),
            b'a'..=b'f' => self.digit(octet - b'a' + 10),
            b'.' => self.part(Form::Dotted),
            b':' => self.part(Form::Grouped),
            _ => false,
        };
        taken.then_some(()).ok_or(OUTSIDE)
    }

    /// Whether a digit can stand here.
    fn digit(&mut self, digit: u8) -> bool {
        let zero = self.open.count > 0 && self.open.group == 0;
        let digits = self.open.and(digit);
        let fits = match self.form {
            Form::Dotted => digits.octet.is_some(),
            _ => digits.count <= MOST_GROUP_DIGITS && !self.maps(digits.group),
        };
        if fits && !zero {
            self.open = digits;
        }
        fits && !zero
    }

    /// Whether this as the next group makes it a mapped address, which is dotted.
    fn maps(&self, group: u16) -> bool {
        let [before @ .., last] = MAPPED;
        self.ended == before.len() && group == last && self.numbers.starts_with(&before)
    }

    /// Whether a dot or a colon can stand here.
    fn part(&mut self, form: Form) -> bool {
        let (most, fits) = match form {
            Form::Dotted => (OCTETS, self.open.octet.is_some()),
            _ => (GROUPS, true),
        };
        let own = self.form == Form::Either || self.form == form;
        if !own || !fits || self.open.count == 0 || self.ended + 1 == most {
            return false;
        }
        self.numbers[self.ended] = self.number(form);
        self.ended += 1;
        (self.form, self.open) = (form, Digits::default());
        true
    }

    fn number(&self, form: Form) -> u16 {
        match form {
            Form::Dotted => u16::from(self.open.octet.unwrap_or(0)),
            _ => self.open.group,
        }
    }

    /// "source address (16 octets, IPv4 mapped)", where it can end.
    pub fn octets(&self) -> [u8; 16] {
        let mut numbers = self.numbers;
        numbers[self.ended] = self.number(self.form);
        let mut octets = [0; 16];
        if self.form == Form::Dotted {
            let [a, b, c, d, ..] = numbers;
            let [e, f, g, h, i, j] = MAPPED;
            numbers = [e, f, g, h, i, j, a << 8 | b, c << 8 | d];
        }
        for (pair, number) in octets.chunks_exact_mut(2).zip(numbers) {
            pair.copy_from_slice(&number.to_be_bytes());
        }
        octets
    }
}
