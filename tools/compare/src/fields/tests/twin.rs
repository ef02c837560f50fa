//! A reader of fields that keeps the rules, or breaks one of them. It goes from
//! octet to octet, and looks ahead where a CR LF may close the field or fold it.

use crate::wrongs::wrongs;
use evaluator::field::Methods;
use evaluator::refusal::Refusal;
use records::field::code::Read;

wrongs! {
    NameInOneCase
    MethodsInOneCase
    BlankBeforeTheColon
    BlankNeededAfterTheColon
    NoColonNeeded
    TabIsNoBlank
    ObsoleteFolds
    ObsoleteCharacters
    ObsoleteQuotedPairs
    DeleteAllowed
    Over126Allowed
    TildeRefused
    QuotedBlankRefused
    FoldWithoutABlank
    FoldRefusedAtItsCr
    CommentPartsNoFolds
    BlankLineAtTheEndRefused
    ClosingOptional
    ClosingByLf
    TextBehindIgnored
    EndOneLess
    EndOneMore
    WordRefusedAtItsBegin
    DepthSeven
    DepthNine
    DepthInAll
    DepthOneLater
    DepthAfterTheRest
    QuotedParenthesisCounted
    QuotedBackslashQuotes
    RepeatsRead
    RepeatAtItsEnd
    RepeatAtTheFirst
    RepeatNotSpelledWhole
    RepeatOfTheLastAlone
    RepeatAfterTheRest
    NoneInAList
    NoneBeforeAList
    NoCommaNeeded
    EmptyEntries
    FinalComma
    OneOrderAlone
    LastMethodAlone
}

use Wrong::*;

/// The rules but for one.
pub struct Twin(pub Wrong);

impl Twin {
    pub fn read(&self, text: &[u8]) -> Read {
        let mut reader = Reader {
            wrong: self.0,
            text,
            at: 0,
            named: Vec::new(),
            folded: false,
            kept: None,
        };
        let read = reader.field();
        match (read, reader.kept) {
            (Ok(()), Some(kept)) => Err(kept),
            (read, _) => read.map(|()| reader.methods()),
        }
    }
}

struct Reader<'t> {
    wrong: Wrong,
    text: &'t [u8],
    at: usize,
    named: Vec<&'static [u8]>,
    /// Whether the blanks before this place have a CR LF.
    folded: bool,
    /// A refusal that is given if no other follows.
    kept: Option<Refusal>,
}

impl Reader<'_> {
    fn is(&self, wrong: Wrong) -> bool {
        self.wrong == wrong
    }

    fn ahead(&self, by: usize) -> Option<u8> {
        self.text.get(self.at + by).copied()
    }

    fn here(&self) -> Option<u8> {
        self.ahead(0)
    }

    /// 24 at this place.
    fn fail<T>(&self) -> Result<T, Refusal> {
        let place = match self.here() {
            None if self.is(EndOneLess) => self.at.saturating_sub(1),
            None if self.is(EndOneMore) => self.at + 1,
            _ => self.at,
        };
        Err(Refusal::new(24, place))
    }

    fn refuse(&mut self, number: u8, place: usize) -> Result<(), Refusal> {
        let refusal = Refusal::new(number, place);
        match (number, self.wrong) {
            (25, DepthAfterTheRest) | (26, RepeatAfterTheRest) => {
                self.kept = self.kept.or(Some(refusal));
                Ok(())
            }
            _ => Err(refusal),
        }
    }

    fn methods(&self) -> Methods {
        let named = match self.named.split_last() {
            Some((last, _)) if self.is(LastMethodAlone) => std::slice::from_ref(last),
            _ => &self.named,
        };
        Methods {
            dkim: named.contains(&b"dkim".as_slice()),
            spf: named.contains(&b"spf".as_slice()),
        }
    }

    fn word(&mut self, word: &[u8], one_case: Wrong) -> Result<(), Refusal> {
        let begin = self.at;
        for own in word {
            let same = self.here().is_some_and(|octet| match self.is(one_case) {
                true => octet == *own,
                false => octet.eq_ignore_ascii_case(own),
            });
            if !same {
                if self.is(WordRefusedAtItsBegin) {
                    self.at = begin;
                }
                return self.fail();
            }
            self.at += 1;
        }
        Ok(())
    }

    fn field(&mut self) -> Result<(), Refusal> {
        self.word(b"Identity-Alignment", NameInOneCase)?;
        if self.is(BlankBeforeTheColon) {
            self.skip_blanks();
        }
        if self.here() != Some(b':') && !self.is(NoColonNeeded) {
            return self.fail();
        }
        self.at += usize::from(self.here() == Some(b':'));
        if self.is(BlankNeededAfterTheColon) && !self.at_a_blank() {
            return self.fail();
        }
        self.between(false)?;
        let mut listed = self.value(true)?;
        loop {
            self.between(true)?;
            match self.here() {
                Some(b',') if listed => self.at += 1,
                Some(b'd' | b's') if self.is(NoCommaNeeded) => {}
                _ => return self.close(),
            }
            while self.is(EmptyEntries) && self.here() == Some(b',') {
                self.at += 1;
            }
            if self.is(FinalComma) && self.text[self.at..].trim_ascii_start().is_empty() {
                return Ok(());
            }
            self.between(false)?;
            listed = self.value(false)?;
        }
    }

    /// Whether others may follow.
    fn value(&mut self, first: bool) -> Result<bool, Refusal> {
        match self.here().map(|octet| octet.to_ascii_lowercase()) {
            Some(b'n') if first || self.is(NoneInAList) => {
                self.word(b"none", MethodsInOneCase)?;
                Ok(!first || self.is(NoneBeforeAList))
            }
            Some(b'd') if self.is(OneOrderAlone) && !first => self.fail(),
            Some(b'd') => self.method(b"dkim").map(|()| true),
            Some(b's') => self.method(b"spf").map(|()| true),
            _ => self.fail(),
        }
    }

    fn method(&mut self, name: &'static [u8]) -> Result<(), Refusal> {
        let begin = self.at;
        let again = match self.wrong {
            RepeatsRead => false,
            RepeatOfTheLastAlone => self.named.last() == Some(&name),
            _ => self.named.contains(&name),
        };
        if again && self.is(RepeatNotSpelledWhole) {
            return self.refuse(26, begin);
        }
        self.word(name, MethodsInOneCase)?;
        self.named.push(name);
        let place = match self.wrong {
            RepeatAtItsEnd => self.at,
            RepeatAtTheFirst => 20,
            _ => begin,
        };
        match again {
            true => self.refuse(26, place),
            false => Ok(()),
        }
    }

    fn close(&mut self) -> Result<(), Refusal> {
        match self.here() {
            None if self.is(ClosingOptional) => return Ok(()),
            Some(b'\n') if self.is(ClosingByLf) => {}
            Some(b'\r') => {
                self.at += 1;
                if self.here() != Some(b'\n') {
                    return self.fail();
                }
            }
            _ => return self.fail(),
        }
        self.at += 1;
        match self.here() {
            Some(_) if !self.is(TextBehindIgnored) => self.fail(),
            _ => Ok(()),
        }
    }

    fn at_a_blank(&self) -> bool {
        self.is_blank(self.here())
    }

    fn is_blank(&self, octet: Option<u8>) -> bool {
        match octet {
            Some(b'\t') => !self.is(TabIsNoBlank),
            octet => octet == Some(b' '),
        }
    }

    fn skip_blanks(&mut self) {
        while self.at_a_blank() {
            self.at += 1;
        }
    }

    /// Blanks and comments, behind the value or before it.
    fn between(&mut self, behind: bool) -> Result<(), Refusal> {
        self.folded = false;
        loop {
            self.blanks(behind)?;
            if self.here() != Some(b'(') {
                return Ok(());
            }
            let folded = self.folded;
            self.comment()?;
            self.folded = folded && self.is(CommentPartsNoFolds);
        }
    }

    /// A run of blanks with one CR LF at most. Behind the value a CR LF that no
    /// blank follows is left for the end.
    fn blanks(&mut self, behind: bool) -> Result<(), Refusal> {
        self.skip_blanks();
        while self.here() == Some(b'\r') {
            if self.folded && !self.is(ObsoleteFolds) {
                let closes = behind && !self.is(BlankLineAtTheEndRefused);
                return if closes { Ok(()) } else { self.fail() };
            }
            let cr = self.at;
            let fails = match (self.ahead(1), self.ahead(2)) {
                (Some(b'\n'), octet) if self.is_blank(octet) => None,
                (Some(b'\n'), _) if behind => return Ok(()),
                (Some(b'\n'), Some(_)) if self.is(FoldWithoutABlank) => None,
                (Some(b'\n'), _) => Some(2),
                _ => Some(1),
            };
            if let Some(by) = fails {
                self.at = if self.is(FoldRefusedAtItsCr) {
                    cr
                } else {
                    cr + by
                };
                return self.fail();
            }
            self.at = cr + 2;
            self.folded = true;
            self.skip_blanks();
        }
        Ok(())
    }

    fn comment(&mut self) -> Result<(), Refusal> {
        let (mut open, mut opened) = (0, 0);
        loop {
            self.folded = false;
            self.blanks(false)?;
            let Some(octet) = self.here() else {
                return self.fail();
            };
            match octet {
                b'(' => {
                    open += 1;
                    opened += 1;
                    self.judge_depth(open, opened)?;
                }
                b')' => open -= 1,
                b'\\' => {
                    self.at += 1;
                    self.quoted()?;
                    if self.is(QuotedParenthesisCounted) && self.here() == Some(b'(') {
                        self.judge_depth(open + 1, opened + 1)?;
                    }
                }
                _ if self.is_character(octet) => {}
                _ => return self.fail(),
            }
            self.at += 1;
            if open == 0 {
                return Ok(());
            }
        }
    }

    fn judge_depth(&mut self, open: usize, opened: usize) -> Result<(), Refusal> {
        let most = match self.wrong {
            DepthSeven => 7,
            DepthNine => 9,
            _ => 8,
        };
        let counted = if self.is(DepthInAll) { opened } else { open };
        let place = self.at + usize::from(self.is(DepthOneLater));
        match counted > most {
            true => self.refuse(25, place),
            false => Ok(()),
        }
    }

    fn is_character(&self, octet: u8) -> bool {
        match octet {
            126 => !self.is(TildeRefused),
            33..=39 | 42..=91 | 93..=125 => true,
            1..=8 | 11 | 12 | 14..=31 => self.is(ObsoleteCharacters),
            127 => self.is(ObsoleteCharacters) || self.is(DeleteAllowed),
            128..=255 => self.is(Over126Allowed),
            _ => false,
        }
    }

    /// What stands behind a backslash.
    fn quoted(&mut self) -> Result<(), Refusal> {
        let fits = match self.here() {
            Some(b'\\') if self.is(QuotedBackslashQuotes) => {
                self.at += 1;
                return self.quoted();
            }
            Some(b' ' | b'\t') => !self.is(QuotedBlankRefused),
            Some(33..=126) => true,
            Some(0..=31 | 127) => self.is(ObsoleteQuotedPairs),
            _ => false,
        };
        match fits {
            true => Ok(()),
            false => self.fail(),
        }
    }
}
