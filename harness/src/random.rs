//! A small seeded generator of random numbers (splitmix64).

pub struct Random {
    state: u64,
}

impl Random {
    pub fn new(seed: u64) -> Random {
        Random { state: seed }
    }

    pub fn next(&mut self) -> u64 {
        self.state = self.state.wrapping_add(0x9e37_79b9_7f4a_7c15);
        let mut z = self.state;
        z = (z ^ z >> 30).wrapping_mul(0xbf58_476d_1ce4_e5b9);
        z = (z ^ z >> 27).wrapping_mul(0x94d0_49bb_1331_11eb);
        z ^ z >> 31
    }

    /// Another sequence, which depends on this one and leaves it where it is.
    pub fn aside(&self) -> Random {
        Random::new(!self.state)
    }

    pub fn byte(&mut self) -> u8 {
        self.next() as u8
    }

    /// A number below `end`, which is not 0.
    pub fn below(&mut self, end: usize) -> usize {
        (self.next() % end as u64) as usize
    }

    /// A number from `low` to `high`, both included.
    pub fn between(&mut self, low: usize, high: usize) -> usize {
        low + self.below(high - low + 1)
    }

    /// True in `part` of `whole` cases.
    pub fn chance(&mut self, part: usize, whole: usize) -> bool {
        self.below(whole) < part
    }

    pub fn pick<T: Copy>(&mut self, items: &[T]) -> T {
        items[self.below(items.len())]
    }

    pub fn shuffle<T>(&mut self, items: &mut [T]) {
        for last in (1..items.len()).rev() {
            items.swap(last, self.below(last + 1));
        }
    }

    pub fn bytes(&mut self, length: usize) -> Vec<u8> {
        (0..length).map(|_| self.byte()).collect()
    }
}

/// Files of a run after which its largest files come again.
pub const ROUND: u64 = 1 << 15;

/// The seed of file `index` in a run with seed `seed`. It keeps the place of the
/// file in its round, by which the generator makes the largest files.
pub fn file_seed(seed: u64, index: u64) -> u64 {
    let mixed = Random::new(seed.wrapping_mul(0x2545_f491_4f6c_dd1d) ^ index).next();
    mixed - mixed % ROUND + index % ROUND
}
