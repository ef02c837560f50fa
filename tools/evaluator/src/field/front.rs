//! The front part of a field, octet by octet: every way in which the grammar
//! reads it. Each way can be gone to its end, since no rule is without a text; so
//! the grammar can have an octet at a place exactly where some way takes it.

use super::grammar::{method_name, Class, Rule, FIELD};
use crate::message::Kind;

/// A front part that the grammar may have, or cannot have where no way is left.
///
/// There are few ways at once: no rule has two FWS side by side, so two ways of
/// reading the same blanks part at the next octet that is none.
#[derive(Clone, Debug)]
pub struct Front {
    ways: Vec<Way>,
    octets: usize,
}

/// One way in which the grammar reads a front part.
#[derive(Clone, Default)]
struct Way {
    /// What must still come, the next of it last; empty at the field's end.
    ahead: Vec<Ahead>,
    /// How many comments are open.
    open: usize,
    /// The methods spelled whole, each with the place where it begins.
    methods: Vec<(Kind, usize)>,
}

#[derive(Clone, Copy)]
enum Ahead {
    Rule(&'static Rule),
    /// A text of which so many octets were read.
    Text(&'static str, usize),
    /// Nothing is read: a parenthesis was opened, or closed.
    Opened,
    Closed,
    /// Nothing is read: a method that begins at this place is spelled whole.
    Spelled(Kind, usize),
}

/// What one way has next.
#[derive(Clone, Copy, Debug, PartialEq, Eq)]
pub enum Next {
    /// A text of which so many octets were read, and whether the field ends with
    /// it.
    Text {
        text: &'static str,
        read: usize,
        last: bool,
    },
    One(Class),
    End,
}

impl Front {
    /// Nothing was read yet.
    pub fn empty() -> Front {
        let mut front = Front {
            ways: Vec::new(),
            octets: 0,
        };
        front.settle(Way::default().with([Ahead::Rule(&FIELD)]));
        front
    }

    /// All octets of a text.
    pub fn of(text: &[u8]) -> Front {
        let empty = Front::empty();
        text.iter().fold(empty, |front, octet| front.and(*octet))
    }

    /// With one octet more.
    pub fn and(&self, octet: u8) -> Front {
        let mut front = Front {
            ways: Vec::new(),
            octets: self.octets + 1,
        };
        for way in &self.ways {
            if let Some(way) = way.clone().take(octet) {
                front.settle(way);
            }
        }
        front
    }

    /// Goes into the rules ahead of a way, up to the next octet or the end.
    fn settle(&mut self, mut way: Way) {
        let Some(next) = way.ahead.pop() else {
            return self.ways.push(way);
        };
        match next {
            Ahead::Rule(rule) => self.enter(rule, way),
            Ahead::Text(..) => self.ways.push(way.with([next])),
            Ahead::Opened => {
                way.open += 1;
                self.settle(way);
            }
            Ahead::Closed => {
                way.open -= 1;
                self.settle(way);
            }
            Ahead::Spelled(kind, place) => {
                way.methods.push((kind, place));
                self.settle(way);
            }
        }
    }

    fn enter(&mut self, rule: &'static Rule, way: Way) {
        match rule {
            Rule::Text(text) => self.settle(way.with([Ahead::Text(text, 0)])),
            Rule::One(_) => self.ways.push(way.with([Ahead::Rule(rule)])),
            Rule::All(rules) => {
                let rules = rules.iter().rev().map(|rule| Ahead::Rule(rule));
                self.settle(way.with(rules));
            }
            Rule::Any(rules) => {
                for rule in *rules {
                    self.settle(way.clone().with([Ahead::Rule(rule)]));
                }
            }
            Rule::Optional(inner) => {
                self.settle(way.clone());
                self.settle(way.with([Ahead::Rule(inner)]));
            }
            Rule::Many(inner) => {
                self.settle(way.clone());
                self.settle(way.with([Ahead::Rule(rule), Ahead::Rule(inner)]));
            }
            Rule::Method(kind) => {
                let spelled = Ahead::Spelled(*kind, self.octets);
                self.settle(way.with([spelled, Ahead::Text(method_name(*kind), 0)]));
            }
            Rule::Comment(inner) => {
                let close = [Ahead::Closed, Ahead::Text(")", 0)];
                let open = [Ahead::Opened, Ahead::Text("(", 0)];
                let way = way.with(close).with([Ahead::Rule(inner)]);
                self.settle(way.with(open));
            }
        }
    }

    /// Whether the grammar can have this front part.
    pub fn viable(&self) -> bool {
        !self.ways.is_empty()
    }

    /// Whether it is a field as it stands.
    pub fn whole(&self) -> bool {
        self.ways.iter().any(|way| way.ahead.is_empty())
    }

    /// How many parentheses are open at its end.
    pub fn open(&self) -> usize {
        self.ways.iter().map(|way| way.open).max().unwrap_or(0)
    }

    /// The methods spelled whole, each with the place where it begins. The ways
    /// differ in blanks alone, so any of them has all.
    pub fn methods(&self) -> &[(Kind, usize)] {
        self.ways.first().map_or(&[], |way| &way.methods)
    }

    /// What the ways have next, each thing once.
    pub fn next(&self) -> Vec<Next> {
        let mut all = Vec::new();
        for next in self.ways.iter().map(Way::next) {
            if !all.contains(&next) {
                all.push(next);
            }
        }
        all
    }
}

impl Way {
    /// These come next, the last of them first.
    fn with(mut self, ahead: impl IntoIterator<Item = Ahead>) -> Way {
        self.ahead.extend(ahead);
        self
    }

    /// The way after an octet, if that is what comes next.
    fn take(mut self, octet: u8) -> Option<Way> {
        match self.ahead.pop()? {
            Ahead::Text(text, read) => {
                let (first, rest) = text.as_bytes().get(read..)?.split_first()?;
                let more = (!rest.is_empty()).then_some(Ahead::Text(text, read + 1));
                let same = first.eq_ignore_ascii_case(&octet);
                same.then(|| self.with(more))
            }
            Ahead::Rule(Rule::One(class)) => class.has(octet).then_some(self),
            _ => None,
        }
    }

    fn next(&self) -> Next {
        match self.ahead.last() {
            Some(Ahead::Text(text, read)) => Next::Text {
                text,
                read: *read,
                last: self.ahead.len() == 1,
            },
            Some(Ahead::Rule(Rule::One(class))) => Next::One(*class),
            _ => Next::End,
        }
    }
}

impl std::fmt::Debug for Way {
    fn fmt(&self, out: &mut std::fmt::Formatter<'_>) -> std::fmt::Result {
        write!(out, "{:?} next, {} open, ", self.next(), self.open)?;
        write!(out, "{:?}", self.methods)
    }
}
