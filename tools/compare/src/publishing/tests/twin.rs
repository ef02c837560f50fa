//! A writer and a reader of policy records that keep the rules, or break one of
//! them.

use crate::wrongs::wrongs;
use evaluator::policy::entries::{check_entry, entries};
use evaluator::policy::{read, repeated_name, rua_part};
use records::code::{numbers, Code, RecordNumbers, RecordRead, Written};
use waslidhaj::raw::Refusal;

wrongs! {
    AbsentIsNone
    InvalidLeftOut
    UnlistedLeftOut
    InvalidNpWritten
    RefusedAtItsTag
    EqualToPLeftOut
    UnlistedModeIsStrict
    UnlistedPsdIsNo
    UnlistedTestingIsYes
    DefaultsWritten
    NpBeforeSp
    RuaBeforeT
    NoBlank
    FinalSemicolon
    EmptyRuaWritten
    RuaInLowerCase
    OneValidEntryIsEnough
    EmptyEntryAllowed
    ExclamationAllowed
    SemicolonAllowed
    TabAllowed
    BlankFirstAllowed
    BlankLastAllowed
    LimitOneLower
    LimitOneHigher
    RuaFirst
    RoomFirst
    RoomBeforeRua
    OneOctetMoreNeeded
    OneOctetLessNeeded
    NeededOneLess
    WrittenAsFarAsItGoes
    WrittenPastTheEnd
    LengthWhereRefused
    LengthOneMore
    InvalidReadAsAbsent
    StrictReadInLowerCaseAlone
    RepeatsRead
    RuaWithABlank
    RuaOfNoRecord
    NumbersOfNoRecord
    ReportsByRuaAlone
    PsdReadAsU
}

use Wrong::*;

/// The rules but for one.
pub struct Twin(pub Wrong);

const POLICIES: [&str; 3] = ["none", "quarantine", "reject"];
const ABSENT: u8 = 3;

impl Code for Twin {
    fn write(&self, numbers: RecordNumbers, rua: &[u8], out: &mut [u8]) -> Written {
        let bad_rua = !rua.is_empty() && !self.allows(rua);
        let text = self.text(&numbers, rua);
        let short = out.len() < text.len() + usize::from(self.is(OneOctetMoreNeeded));
        let bad_tag = self.bad_tag(&numbers);
        let number = match bad_tag {
            _ if self.is(RoomFirst) && short => 10,
            _ if self.is(RuaFirst) && bad_rua => 16,
            Some(_) => 15,
            None if self.is(RoomBeforeRua) && short => 10,
            None if bad_rua => 16,
            None if short && !(self.is(OneOctetLessNeeded) && out.len() + 1 == text.len()) => 10,
            None => 0,
        };
        let place = match number {
            10 => text.len() - usize::from(self.is(NeededOneLess)),
            15 if self.is(RefusedAtItsTag) => bad_tag.unwrap_or_default(),
            _ => 0,
        };
        let refusal = Refusal { number, place };
        self.lend(&text, out, refusal)
    }

    fn read(&self, text: &[u8]) -> RecordRead {
        let Some(settings) = read(text) else {
            return self.no_record(text);
        };
        let (rua_begin, rua_length) = rua_part(text);
        let mut read = RecordRead {
            is_record: true,
            settings: numbers(&settings),
            reports: settings.rua_valid || self.is(ReportsByRuaAlone) && rua_length > 0,
            rua_begin,
            rua_length,
        };
        if self.is(InvalidReadAsAbsent) && read.settings.sp == 4 {
            read.settings.sp = ABSENT;
        }
        if self.is(StrictReadInLowerCaseAlone) && !holds(text, b"adkim=s") {
            read.settings.adkim = 0;
        }
        if self.is(PsdReadAsU) {
            read.settings.psd = 0;
        }
        if self.is(RuaWithABlank) && rua_begin > 0 && text[rua_begin - 1] == b' ' {
            read.rua_begin -= 1;
            read.rua_length += 1;
        }
        read
    }
}

fn holds(text: &[u8], part: &[u8]) -> bool {
    text.windows(part.len()).any(|own| own == part)
}

impl Twin {
    fn is(&self, wrong: Wrong) -> bool {
        self.0 == wrong
    }

    /// The first tag that refusal 15 is given for.
    fn bad_tag(&self, numbers: &RecordNumbers) -> Option<usize> {
        let most = match self.0 {
            AbsentIsNone => ABSENT,
            _ => ABSENT - 1,
        };
        let invalid = |n: u8| match self.0 {
            InvalidLeftOut => n > 4,
            UnlistedLeftOut => n == 4,
            _ => n > ABSENT,
        };
        let np = numbers.np > ABSENT && !self.is(InvalidNpWritten);
        let bad = [
            numbers.p > most,
            invalid(numbers.sp),
            np && invalid(numbers.np),
        ];
        bad.iter().position(|bad| *bad)
    }

    fn allows(&self, rua: &[u8]) -> bool {
        let valid = |entry: &[u8]| self.valid(entry);
        let entries_are_valid = match self.0 {
            OneValidEntryIsEnough => entries(rua).any(valid),
            _ => entries(rua).all(valid),
        };
        let octet = |octet: &u8| match octet {
            b';' => self.is(SemicolonAllowed),
            b'\t' => self.is(TabAllowed),
            _ => (32..=126).contains(octet),
        };
        let blank = |octet: Option<&u8>| matches!(octet, Some(b' ' | b'\t'));
        let limit = 4096 + usize::from(self.is(LimitOneHigher));
        let limit = limit - usize::from(self.is(LimitOneLower));
        entries_are_valid
            && rua.iter().all(octet)
            && (!blank(rua.first()) || self.is(BlankFirstAllowed))
            && (!blank(rua.last()) || self.is(BlankLastAllowed))
            && rua.len() <= limit
    }

    fn valid(&self, entry: &[u8]) -> bool {
        let entry: Vec<u8> = match self.is(ExclamationAllowed) {
            true => entry
                .iter()
                .copied()
                .filter(|octet| *octet != b'!')
                .collect(),
            false => entry.to_vec(),
        };
        check_entry(&entry).is_ok() || entry.is_empty() && self.is(EmptyEntryAllowed)
    }

    fn text(&self, numbers: &RecordNumbers, rua: &[u8]) -> Vec<u8> {
        let policy = |name: &str, n: u8| {
            let word = POLICIES.get(usize::from(n));
            let left_out = self.is(EqualToPLeftOut) && name != "p" && n == numbers.p;
            word.filter(|_| !left_out)
                .map(|word| format!("{name}={word}"))
        };
        let unlisted = |n: u8, wrong: Wrong, most: u8| n > most && self.is(wrong);
        let strict = |n: u8| n == 1 || unlisted(n, UnlistedModeIsStrict, 1);
        let mode = |name: &str, n: u8| match strict(n) {
            true => Some(format!("{name}=s")),
            false => self.is(DefaultsWritten).then(|| format!("{name}=r")),
        };
        let psd = match numbers.psd {
            1 => Some("psd=y".to_string()),
            2 => Some("psd=n".to_string()),
            n => unlisted(n, UnlistedPsdIsNo, 2).then(|| "psd=n".to_string()),
        };
        let testing = numbers.t == 1 || unlisted(numbers.t, UnlistedTestingIsYes, 1);
        let rua = match self.is(RuaInLowerCase) {
            true => rua.to_ascii_lowercase(),
            false => rua.to_vec(),
        };
        let rua = (!rua.is_empty() || self.is(EmptyRuaWritten))
            .then(|| [b"rua=", rua.as_slice()].concat());
        let words = |word: Option<String>| word.map(String::into_bytes);
        let mut tags = vec![
            words(Some("v=DMARC1".to_string())),
            words(policy("p", numbers.p).or(Some("p=none".to_string()))),
            words(policy("sp", numbers.sp)),
            words(policy("np", numbers.np)),
            words(mode("adkim", numbers.adkim)),
            words(mode("aspf", numbers.aspf)),
            words(psd),
            words(testing.then(|| "t=y".to_string())),
            rua,
        ];
        if self.is(NpBeforeSp) {
            tags.swap(2, 3);
        }
        if self.is(RuaBeforeT) {
            tags.swap(7, 8);
        }
        let tags: Vec<Vec<u8>> = tags.into_iter().flatten().collect();
        let separator: &[u8] = if self.is(NoBlank) { b";" } else { b"; " };
        let mut text = tags.join(separator);
        if self.is(FinalSemicolon) {
            text.push(b';');
        }
        text
    }

    fn lend(&self, text: &[u8], out: &mut [u8], refusal: Refusal) -> Written {
        let refused = refusal.number != 0;
        let room = text.len().min(out.len());
        if !refused || self.is(WrittenAsFarAsItGoes) && refusal.number == 10 {
            out[..room].copy_from_slice(&text[..room]);
        }
        if !refused && self.is(WrittenPastTheEnd) && room < out.len() {
            out[room] = 0;
        }
        let length = match refused && !self.is(LengthWhereRefused) {
            true => 0,
            false => text.len() + usize::from(self.is(LengthOneMore)),
        };
        Written { refusal, length }
    }

    fn no_record(&self, text: &[u8]) -> RecordRead {
        let mut read = RecordRead::default();
        if self.is(RepeatsRead) && repeated_name(text).is_some() {
            read.is_record = true;
        }
        if self.is(NumbersOfNoRecord) {
            read.settings.p = ABSENT;
        }
        if self.is(RuaOfNoRecord) {
            let begin = text.windows(4).position(|own| own == b"rua=");
            read.rua_begin = begin.map_or(0, |begin| begin + 4);
        }
        read
    }
}
