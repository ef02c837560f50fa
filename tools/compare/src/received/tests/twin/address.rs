//! Source addresses.

use super::{Parser, Read, Wrong, Wrong::*};

impl Parser<'_> {
    pub fn address(&mut self) -> Read<[u8; 16]> {
        let begin = self.at;
        while self.peek()? != b'<' {
            let front = &self.text[begin..=self.at];
            let judged = Judged(self.wrong);
            self.only_if(judged.dotted(front) || judged.grouped(front))?;
            self.at += 1;
        }
        let text = &self.text[begin..self.at];
        self.only_if(!text.is_empty() && !text.ends_with(b".") && !text.ends_with(b":"))?;
        let (dots, colons) = (text.split(is(b'.')).count(), text.split(is(b':')).count());
        let seven = self.is(SevenGroupsTaken) && colons == 7;
        self.only_if(dots == 4 || colons == 8 || seven)?;
        let mapped = text.starts_with(b"0:0:0:0:0:ffff:") && !self.is(MappedGroupsTaken);
        self.only_if(!mapped)?;
        Ok(match dots {
            4 => self.mapped(text),
            _ => self.groups(text),
        })
    }

    fn mapped(&self, text: &[u8]) -> [u8; 16] {
        let mut source = [0; 16];
        if !self.is(DottedIsCompatible) {
            source[10..12].fill(255);
        }
        for (octet, own) in source[12..].iter_mut().zip(text.split(is(b'.'))) {
            *octet = number(own, 10) as u8;
        }
        source
    }

    fn groups(&self, text: &[u8]) -> [u8; 16] {
        let mut source = [0; 16];
        for (pair, own) in source.chunks_exact_mut(2).zip(text.split(is(b':'))) {
            let group = number(own, 16) as u16;
            let octets = match self.wrong {
                GroupsLowOctetFirst => group.to_le_bytes(),
                _ => group.to_be_bytes(),
            };
            pair.copy_from_slice(&octets);
        }
        source
    }
}

fn is(own: u8) -> impl Fn(&u8) -> bool {
    move |octet| *octet == own
}

fn number(text: &[u8], base: u32) -> u64 {
    let text = std::str::from_utf8(text).unwrap_or_default();
    u64::from_str_radix(text, base).unwrap_or(0)
}

/// Front parts of addresses.
struct Judged(Wrong);

impl Judged {
    fn is(&self, wrong: Wrong) -> bool {
        self.0 == wrong
    }

    fn dotted(&self, front: &[u8]) -> bool {
        let parts: Vec<&[u8]> = front.split(is(b'.')).collect();
        let octet = |own: &[u8]| {
            let zero = own.len() > 1 && own[0] == b'0' && !self.is(OctetsWithLeadingZeros);
            let most = if self.is(OctetOver255Taken) { 999 } else { 255 };
            let few = own.len() <= 4;
            own.iter().all(u8::is_ascii_digit) && !zero && few && number(own, 10) <= most
        };
        self.parted(&parts, 4) && parts.iter().all(|own| octet(own))
    }

    fn grouped(&self, front: &[u8]) -> bool {
        let parts: Vec<&[u8]> = front.split(is(b':')).collect();
        if self.is(FirstOctetJudgedAsOne) && parts.len() == 1 {
            let digits = front.iter().all(u8::is_ascii_digit);
            if digits && number(front, 10) > 255 {
                return false;
            }
        }
        let group = |own: &[u8]| {
            let zero = own.len() > 1 && own[0] == b'0' && !self.is(GroupsWithLeadingZeros);
            let most = if self.is(GroupsOfFiveDigits) { 5 } else { 4 };
            let capital = |octet: &u8| octet.is_ascii_uppercase() && !self.is(GroupsInCapitals);
            let hex = own
                .iter()
                .all(|octet| octet.is_ascii_hexdigit() && !capital(octet));
            hex && !zero && own.len() <= most
        };
        self.parted(&parts, 8) && parts.iter().all(|own| group(own)) && !self.maps(&parts)
    }

    /// Parts of which no more than the last is empty, and no more than are allowed.
    fn parted(&self, parts: &[&[u8]], most: usize) -> bool {
        let (_, before) = parts.split_last().unwrap_or((&b"".as_slice(), &[]));
        let empty = before.iter().any(|own| own.is_empty());
        parts.len() <= most && (!empty || self.is(EmptyGroupsTaken) && most == 8)
    }

    fn maps(&self, parts: &[&[u8]]) -> bool {
        let zeros = parts.iter().take_while(|own| **own == b"0").count();
        let last = parts.last().copied().unwrap_or_default();
        match self.0 {
            MappedGroupsTaken | MappedAtItsEnd => false,
            AllZeroFrontRefused => zeros >= 5 && parts.len() == 6 && last.len() == 4,
            LastGroupMapped => zeros >= 5 && parts.len() >= 6 && last == b"ffff",
            _ => zeros == 5 && parts.len() == 6 && last == b"ffff",
        }
    }
}
