//! A second, slow definition of what is refused and where: the texts that Ask 9 can
//! write, as a set of words that is left smaller by each octet (its derivative).

use std::rc::Rc;

use crate::case::refusal;
use evaluator::refusal::Refusal;

/// A set of words of octets.
#[derive(Debug)]
pub enum Set {
    /// No word at all.
    Never,
    /// The empty word alone.
    Empty,
    One(Vec<u8>),
    Any(fn(u8) -> bool),
    Then(Words, Words),
    Or(Vec<Words>),
    /// From so many to so many words, one after the other.
    Times(Words, usize, usize),
    /// The words of so many octets or fewer.
    Within(Words, usize),
}

pub type Words = Rc<Set>;

pub fn one(text: &str) -> Words {
    Rc::new(match text.is_empty() {
        true => Set::Empty,
        false => Set::One(text.as_bytes().to_vec()),
    })
}

pub fn any(of: fn(u8) -> bool) -> Words {
    Rc::new(Set::Any(of))
}

fn then(first: Words, rest: Words) -> Words {
    match (&*first, &*rest) {
        (Set::Never, _) | (_, Set::Never) => Rc::new(Set::Never),
        (Set::Empty, _) => rest,
        (_, Set::Empty) => first,
        _ => Rc::new(Set::Then(first, rest)),
    }
}

pub fn all(parts: &[Words]) -> Words {
    let parts = parts.iter().rev().cloned();
    parts.fold(one(""), |rest, first| then(first, rest))
}

pub fn or(ways: &[Words]) -> Words {
    let never = |own: &Words| matches!(**own, Set::Never);
    let mut ways: Vec<Words> = ways.iter().filter(|own| !never(own)).cloned().collect();
    match ways.len() {
        0 => Rc::new(Set::Never),
        1 => ways.remove(0),
        _ => Rc::new(Set::Or(ways)),
    }
}

pub fn times(word: &Words, least: usize, most: usize) -> Words {
    match most {
        0 => one(""),
        _ => Rc::new(Set::Times(word.clone(), least, most)),
    }
}

pub fn within(words: Words, octets: usize) -> Words {
    match shortest(&words) {
        Some(least) if least <= octets => Rc::new(Set::Within(words, octets)),
        _ => Rc::new(Set::Never),
    }
}

/// The octets of a shortest word.
fn shortest(set: &Set) -> Option<usize> {
    match set {
        Set::Never => None,
        Set::Empty => Some(0),
        Set::One(text) => Some(text.len()),
        Set::Any(_) => Some(1),
        Set::Then(first, rest) => Some(shortest(first)? + shortest(rest)?),
        Set::Or(ways) => ways.iter().filter_map(|own| shortest(own)).min(),
        Set::Times(_, 0, _) => Some(0),
        Set::Times(word, least, _) => Some(shortest(word)? * least),
        Set::Within(words, octets) => shortest(words).filter(|least| least <= octets),
    }
}

fn has_empty(set: &Set) -> bool {
    match set {
        Set::Empty => true,
        Set::Never | Set::One(_) | Set::Any(_) => false,
        Set::Then(first, rest) => has_empty(first) && has_empty(rest),
        Set::Or(ways) => ways.iter().any(|own| has_empty(own)),
        Set::Times(word, least, _) => *least == 0 || has_empty(word),
        Set::Within(words, _) => has_empty(words),
    }
}

/// What can stand behind an octet.
fn behind(set: &Set, octet: u8) -> Words {
    match set {
        Set::Never | Set::Empty => Rc::new(Set::Never),
        Set::One(text) if text[0] == octet => match text.len() {
            1 => one(""),
            _ => Rc::new(Set::One(text[1..].to_vec())),
        },
        Set::Any(of) if of(octet) => one(""),
        Set::One(_) | Set::Any(_) => Rc::new(Set::Never),
        Set::Then(first, rest) => {
            let here = then(behind(first, octet), rest.clone());
            match has_empty(first) {
                true => or(&[here, behind(rest, octet)]),
                false => here,
            }
        }
        Set::Or(ways) => {
            let ways: Vec<Words> = ways.iter().map(|own| behind(own, octet)).collect();
            or(&ways)
        }
        Set::Times(word, least, most) => {
            let rest = times(word, least.saturating_sub(1), most - 1);
            then(behind(word, octet), rest)
        }
        Set::Within(_, 0) => Rc::new(Set::Never),
        Set::Within(words, octets) => within(behind(words, octet), octets - 1),
    }
}

fn never(set: &Set) -> bool {
    matches!(set, Set::Never)
}

/// What can stand behind a front part, with numbers of their widths and of any.
#[derive(Clone)]
pub struct Front {
    own: Words,
    wide: Words,
}

impl Front {
    /// Of a form, once with numbers of any width.
    pub fn of(form: fn(bool) -> Words) -> Front {
        Front {
            own: form(false),
            wide: form(true),
        }
    }

    /// With one octet more, or the number that it is refused by: 20 if no text of the
    /// form has it there, 21 if only numbers of any width would.
    pub fn and(&self, octet: u8) -> Result<Front, u8> {
        let next = Front {
            own: behind(&self.own, octet),
            wide: behind(&self.wide, octet),
        };
        match (never(&next.own), never(&next.wide)) {
            (false, _) => Ok(next),
            (true, false) => Err(21),
            (true, true) => Err(20),
        }
    }

    /// The refusal of an uncut text, of which so many octets were read and whose end is
    /// declared; 22 is at the length.
    pub fn refused(&self, text: &[u8], read: usize) -> Option<Refusal> {
        let mut front = self.clone();
        for place in read..text.len() {
            match front.and(text[place]) {
                Err(number) => return Some(refusal(number, place)),
                Ok(_) if end_below_begin(&text[..=place]) => return Some(refusal(20, place)),
                Ok(next) => front = next,
            }
        }
        (!has_empty(&front.own)).then_some(refusal(22, text.len()))
    }
}

/// Whether the last octet is the `<` after an end that is below begin.
fn end_below_begin(front: &[u8]) -> bool {
    if !front.ends_with(b"<") {
        return false;
    }
    let front = std::str::from_utf8(front).unwrap_or("");
    let Some((rest, end)) = front
        .strip_suffix('<')
        .and_then(|own| own.rsplit_once("<end>"))
    else {
        return false;
    };
    let Some((_, begin)) = rest.rsplit_once("<begin>") else {
        return false;
    };
    let number = |text: &str| text.parse::<u128>().ok();
    let begin = begin.strip_suffix("</begin>").and_then(number);
    begin.is_some_and(|begin| number(end).is_some_and(|end| end < begin))
}
