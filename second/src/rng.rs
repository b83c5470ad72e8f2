//! A small seeded source of random numbers (splitmix64): the same seed gives
//! the same numbers everywhere.

pub struct Rng {
    state: u64,
}

impl Rng {
    pub fn new(seed: u64) -> Rng {
        Rng { state: seed }
    }

    pub fn next_u64(&mut self) -> u64 {
        self.state = self.state.wrapping_add(0x9e37_79b9_7f4a_7c15);
        let mut z = self.state;
        z = (z ^ (z >> 30)).wrapping_mul(0xbf58_476d_1ce4_e5b9);
        z = (z ^ (z >> 27)).wrapping_mul(0x94d0_49bb_1331_11eb);
        z ^ (z >> 31)
    }

    /// A number below `count`; 0 if `count` is 0.
    pub fn below(&mut self, count: usize) -> usize {
        match count as u64 {
            0 => 0,
            count => (self.next_u64() % count) as usize,
        }
    }

    /// A number from `low` to `high`, both included; `low` if they are crossed.
    pub fn within(&mut self, low: i64, high: i64) -> i64 {
        if high <= low {
            return low;
        }
        let span = (high - low + 1) as u64;
        low + (self.next_u64() % span) as i64
    }

    /// True `part` times out of `whole`.
    pub fn chance(&mut self, part: usize, whole: usize) -> bool {
        self.below(whole) < part
    }

    /// One of the entries. The list is not empty.
    pub fn pick<T: Copy>(&mut self, entries: &[T]) -> T {
        entries[self.below(entries.len())]
    }

    /// Any word.
    pub fn word(&mut self) -> i32 {
        self.next_u64() as i32
    }

    /// A word that damage is made of: extreme, near a limit, or anything.
    pub fn wild_word(&mut self) -> i32 {
        match self.below(8) {
            0 | 1 => i32::MIN,
            2 => i32::MAX,
            3 => self.pick(&[
                i32::MIN + 1,
                i32::MAX - 1,
                20_001,
                -20_001,
                10_000,
                1_000_001,
            ]),
            4 => self.word(),
            _ => self.within(-3, 16) as i32,
        }
    }

    /// Puts the entries in a random order.
    pub fn shuffle<T>(&mut self, entries: &mut [T]) {
        for last in (1..entries.len()).rev() {
            entries.swap(last, self.below(last + 1));
        }
    }
}
