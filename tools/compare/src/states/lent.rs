//! Lent memory between guards.

use sheets::programs::lent::FILL;

/// Octets before and behind what is lent.
const GUARD: usize = 64;

/// Memory of which the middle is lent.
#[derive(Clone, Debug, PartialEq, Eq)]
pub struct Lent(Vec<u8>);

impl Lent {
    pub fn of(size: usize) -> Lent {
        Lent(vec![FILL; GUARD + size + GUARD])
    }

    /// What is lent.
    pub fn part(&mut self) -> &mut [u8] {
        let end = self.0.len() - GUARD;
        self.0.get_mut(GUARD..end).unwrap_or_default()
    }

    /// How many octets are lent.
    pub fn size(&self) -> usize {
        self.0.len() - 2 * GUARD
    }

    /// The first octets of what is lent.
    pub fn front(&self, length: usize) -> &[u8] {
        let end = self.0.len() - GUARD;
        let lent = self.0.get(GUARD..end).unwrap_or_default();
        lent.get(..length).unwrap_or(lent)
    }

    /// Whether nothing was written but so many octets from octet 0 of what is lent.
    pub fn only(&self, length: usize) -> bool {
        let filled = |octets: &[u8]| octets.iter().all(|octet| *octet == FILL);
        let (before, rest) = self.0.split_at(GUARD);
        let written = length.min(self.size());
        filled(before) && length == written && filled(rest.get(written..).unwrap_or_default())
    }
}
