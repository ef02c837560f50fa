//! How a text arrives: in parts cut anywhere, with its end declared, or not, or early.

use std::fmt;
use std::ops::Range;

use sheets::random::Random;

/// A text of so many octets arrives octet by octet, too.
const SHORT: usize = 1_400;
/// As many acts are shown.
const SHOWN: usize = 40;

#[derive(Clone, Debug, PartialEq, Eq)]
pub enum Act {
    /// These octets of the text, which may come again.
    Part(Range<usize>),
    /// The end is declared.
    End,
}

#[derive(Clone, Debug, Default, PartialEq, Eq)]
pub struct Arrival(pub Vec<Act>);

impl Arrival {
    /// All at once, and then the end.
    pub fn uncut(length: usize) -> Arrival {
        Arrival(vec![Act::Part(0..length), Act::End])
    }

    /// Cut at these places, which go up.
    fn cut(places: &[usize], length: usize) -> Arrival {
        let begins = [0].into_iter().chain(places.iter().copied());
        let ends = places.iter().copied().chain([length]);
        let parts = begins.zip(ends).map(|(begin, end)| Act::Part(begin..end));
        Arrival(parts.chain([Act::End]).collect())
    }

    fn put(&mut self, random: &mut Random, act: Act) {
        let at = random.below(self.0.len() + 1);
        self.0.insert(at, act);
    }
}

/// The ways in which a whole text arrives: uncut, cut at random, and a short one octet by
/// octet.
pub fn cuts(random: &mut Random, length: usize) -> Vec<Arrival> {
    let mut ways = vec![Arrival::uncut(length), at_random(random, length)];
    if length <= SHORT {
        let places: Vec<usize> = (1..length).collect();
        ways.push(Arrival::cut(&places, length));
    }
    ways
}

/// The same, and one with something more.
pub fn arrivals(random: &mut Random, length: usize) -> Vec<Arrival> {
    let mut ways = cuts(random, length);
    let mut more = at_random(random, length);
    for _ in 0..random.between(1, 4) {
        let act = any_act(random, length);
        match random.percent(50) {
            true => more.0.push(act),
            false => more.put(random, act),
        }
    }
    ways.push(more);
    ways
}

/// A short text in two parts, cut at each place.
pub fn halves(length: usize) -> impl Iterator<Item = Arrival> {
    let places = 0..if length <= SHORT { length + 1 } else { 0 };
    places.map(move |place| Arrival::cut(&[place], length))
}

/// Cut at a few places or at many, now and then twice at one place.
fn at_random(random: &mut Random, length: usize) -> Arrival {
    let most = match random.below(10) {
        0 => 200.min(length),
        _ => 8,
    };
    let count = random.between(1, most.max(1));
    let mut places: Vec<usize> = (0..count).map(|_| random.below(length + 1)).collect();
    if random.percent(30) {
        places.extend(places.first().copied());
    }
    places.sort_unstable();
    Arrival::cut(&places, length)
}

/// An end, an empty part, one octet, or a part of the text again.
fn any_act(random: &mut Random, length: usize) -> Act {
    let begin = random.below(length + 1);
    match random.below(5) {
        0 | 1 => Act::End,
        2 => Act::Part(begin..begin),
        3 => Act::Part(begin..(begin + 1).min(length)),
        _ => Act::Part(begin..random.between(begin, length)),
    }
}

impl fmt::Display for Arrival {
    fn fmt(&self, out: &mut fmt::Formatter<'_>) -> fmt::Result {
        for act in self.0.iter().take(SHOWN) {
            match act {
                Act::Part(part) => write!(out, "{}-{} ", part.start, part.end)?,
                Act::End => write!(out, "end ")?,
            }
        }
        write!(out, "({} in all)", self.0.len())
    }
}
