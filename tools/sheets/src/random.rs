//! A small seeded generator (splitmix64).

#[derive(Clone, Debug)]
pub struct Random {
    state: u64,
}

impl Random {
    /// The generator of one seed and index.
    pub fn of(seed: u64, index: u64) -> Random {
        let mut outer = Random { state: seed };
        let mixed = outer.number() ^ index.wrapping_mul(0xD1B5_4A32_D192_ED03);
        let mut inner = Random { state: mixed };
        inner.number();
        inner
    }

    pub fn number(&mut self) -> u64 {
        self.state = self.state.wrapping_add(0x9E37_79B9_7F4A_7C15);
        let mut z = self.state;
        z = (z ^ (z >> 30)).wrapping_mul(0xBF58_476D_1CE4_E5B9);
        z = (z ^ (z >> 27)).wrapping_mul(0x94D0_49BB_1331_11EB);
        z ^ (z >> 31)
    }

    /// A number below a bound; 0 if the bound is 0.
    pub fn below(&mut self, bound: usize) -> usize {
        let number = self.number() >> 11;
        number.checked_rem(bound as u64).unwrap_or(0) as usize
    }

    /// A number from a range, both ends included.
    pub fn between(&mut self, least: usize, most: usize) -> usize {
        least + self.below(most.saturating_sub(least) + 1)
    }

    /// True in so many cases of a hundred.
    pub fn percent(&mut self, rate: usize) -> bool {
        self.below(100) < rate
    }

    /// One of a list; the default if the list is empty.
    pub fn pick<T: Copy + Default>(&mut self, list: &[T]) -> T {
        let index = self.below(list.len());
        list.get(index).copied().unwrap_or_default()
    }

    pub fn octet(&mut self) -> u8 {
        (self.number() >> 56) as u8
    }

    /// Puts a list in a random order.
    pub fn shuffle<T>(&mut self, list: &mut [T]) {
        for last in (1..list.len()).rev() {
            list.swap(last, self.below(last + 1));
        }
    }
}
