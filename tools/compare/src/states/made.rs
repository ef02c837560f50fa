//! States and checks that no call gave.

use std::borrow::BorrowMut;

use sheets::random::Random;

/// Sets the choices of a seed apart from those of the calls.
const STATES: u64 = 0x7374_6174_6573_2121;

/// How one is made.
#[derive(Clone, Copy, Debug, PartialEq, Eq)]
pub enum Kind {
    /// Any octets everywhere.
    Octets,
    /// Numbers of the size that one has, and domains.
    Plausible,
    /// One of a running evaluation or check with a few fields changed.
    Spoilt,
}

/// The fields by their size and what they hold.
pub struct Fields<'v> {
    pub flags: Vec<&'v mut u8>,
    pub domains: &'v mut [u8],
    pub numbers: &'v mut [u16],
    pub kept: &'v mut [u16],
    pub stored: &'v mut [u16],
    pub words: Vec<&'v mut usize>,
}

/// What is made up: a state or a check.
pub trait Made: Copy + PartialEq {
    const ZEROS: Self;
    /// A flag might be a number below this.
    const FLAGS: usize;

    fn fields(&mut self) -> Fields<'_>;
}

/// That of an index.
pub fn made<V: Made>(seed: u64, index: u64, real: &mut Real<V>) -> Result<(Kind, V), String> {
    let mut random = Random::of(seed ^ STATES, index);
    let kind = [Kind::Octets, Kind::Plausible, Kind::Spoilt, Kind::Spoilt][random.below(4)];
    let mut value = match kind {
        Kind::Spoilt => real.next_value()?,
        _ => V::ZEROS,
    };
    let fields = value.fields();
    match kind {
        Kind::Octets => octets(&mut random, fields),
        Kind::Plausible => plausible(&mut random, V::FLAGS, fields),
        Kind::Spoilt => spoilt(&mut random, V::FLAGS, fields),
    }
    Ok((kind, value))
}

fn octets(random: &mut Random, fields: Fields) {
    for flag in fields.flags {
        *flag = random.octet();
    }
    fields.domains.fill_with(|| random.octet());
    for numbers in [fields.numbers, fields.kept, fields.stored] {
        numbers.fill_with(|| random.number() as u16);
    }
    for word in fields.words {
        *word = random.number() as usize;
    }
}

fn plausible(random: &mut Random, flags: usize, fields: Fields) {
    for flag in fields.flags {
        *flag = random.below(flags) as u8;
    }
    let letters = b"abcxyz0-_....";
    fields.domains.fill_with(|| random.pick(letters));
    fields.numbers.fill_with(|| random.below(256) as u16);
    fields.kept.fill_with(|| random.below(600) as u16);
    fields.stored.fill_with(|| random.below(256) as u16);
    for word in fields.words {
        *word = small(random);
    }
}

/// A number of the size that a field has, at times one at a limit or past it.
fn small(random: &mut Random) -> usize {
    let limits = [15, 16, 17, 135, 136, 137, 252, 253, 254, 4_301, usize::MAX];
    match random.below(4) {
        0 => random.pick(&limits),
        1 => random.below(4),
        2 => random.below(18),
        _ => random.below(254),
    }
}

/// Changes some of the fields.
fn spoilt(random: &mut Random, flags: usize, mut fields: Fields) {
    for _ in 0..random.between(1, 6) {
        match random.below(6) {
            0 => put(random.below(flags + 1) as u8, random, &mut fields.flags),
            1 => put(random.octet(), random, fields.domains),
            2 => put(small(random) as u16, random, fields.numbers),
            3 => put(random.number() as u16, random, fields.kept),
            4 => put(small(random) as u16, random, fields.stored),
            _ => put(small(random), random, &mut fields.words),
        }
    }
}

/// Puts a number in one of these places, if there are any.
fn put<T>(number: T, random: &mut Random, places: &mut [impl BorrowMut<T>]) {
    let index = random.below(places.len());
    if let Some(place) = places.get_mut(index) {
        *BorrowMut::<T>::borrow_mut(place) = number;
    }
}

/// The states of running evaluations, or running checks, call by call.
pub struct Real<V> {
    value: V,
    /// Makes the next call.
    step: Box<dyn FnMut(V) -> Result<V, String>>,
}

impl<V: Made> Real<V> {
    pub fn new(step: impl FnMut(V) -> Result<V, String> + 'static) -> Real<V> {
        Real {
            value: V::ZEROS,
            step: Box::new(step),
        }
    }

    /// The one after the next call that changes it.
    fn next_value(&mut self) -> Result<V, String> {
        let before = self.value;
        while self.value == before {
            self.value = (self.step)(self.value)?;
        }
        Ok(self.value)
    }
}
