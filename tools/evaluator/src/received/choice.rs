//! One of several texts, read octet by octet.

use super::{Fault, OUTSIDE};

/// Texts of which none begins with another one, and what each stands for.
pub type Ways<T> = &'static [(&'static str, T)];

/// A way that has all the octets read so far, if some has.
#[derive(Clone, Debug)]
pub struct Choice<T: 'static> {
    ways: Ways<T>,
    /// Whether each way can be gone at all.
    open: [bool; MOST_WAYS],
    chosen: usize,
    /// The text of the chosen way.
    text: &'static [u8],
    read: usize,
}

const MOST_WAYS: usize = 4;

impl<T: Copy> Choice<T> {
    /// Of these ways, those that can be gone.
    pub fn of(ways: Ways<T>, can: impl Fn(T) -> bool) -> Choice<T> {
        let mut open = [false; MOST_WAYS];
        for (own, (_, meant)) in open.iter_mut().zip(ways) {
            *own = can(*meant);
        }
        let mut choice = Choice {
            ways,
            open,
            chosen: 0,
            text: b"",
            read: 0,
        };
        if let Some(first) = open.iter().position(|own| *own) {
            choice.choose(first);
        }
        choice
    }

    /// One octet more; what the way stands for at its last one.
    pub fn take(&mut self, octet: u8) -> Result<Option<T>, Fault> {
        if self.text.get(self.read) != Some(&octet) {
            let other = self.other(octet).ok_or(OUTSIDE)?;
            self.choose(other);
        }
        self.read += 1;
        let ends = self.read == self.text.len();
        Ok(ends.then(|| self.ways[self.chosen].1))
    }

    /// How many octets go on as the chosen way does, before its last one.
    pub fn run(&mut self, rest: &[u8]) -> usize {
        let last = self.text.len().saturating_sub(1);
        let own = self.text.get(self.read..last).unwrap_or_default();
        let run = match rest.starts_with(own) {
            true => own.len(),
            false => own
                .iter()
                .zip(rest)
                .take_while(|(own, octet)| own == octet)
                .count(),
        };
        self.read += run;
        run
    }

    fn choose(&mut self, way: usize) {
        self.chosen = way;
        self.text = self.ways[way].0.as_bytes();
    }

    /// Another way that begins as the chosen one does, and goes on with this octet.
    fn other(&self, octet: u8) -> Option<usize> {
        let front = &self.text[..self.read];
        let goes_on = |text: &[u8]| text.starts_with(front) && text.get(self.read) == Some(&octet);
        let mut ways = self.ways.iter().zip(self.open);
        ways.position(|((text, _), open)| open && goes_on(text.as_bytes()))
    }
}
