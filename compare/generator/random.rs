//! Random numbers that are the same on every run (splitmix64).

/// The original's commit.
const SEED: u64 = 0x9f_ae0a_c1dc;

pub struct Random {
    state: u64,
}

impl Random {
    pub fn new(stream: u64) -> Self {
        Random {
            state: SEED ^ (stream << 56),
        }
    }

    pub fn word(&mut self) -> u64 {
        self.state = self.state.wrapping_add(0x9e37_79b9_7f4a_7c15);
        let mixed = (self.state ^ (self.state >> 30)).wrapping_mul(0xbf58_476d_1ce4_e5b9);
        let mixed = (mixed ^ (mixed >> 27)).wrapping_mul(0x94d0_49bb_1331_11eb);
        mixed ^ (mixed >> 31)
    }

    /// A number from `least` to `greatest`, both among them.
    pub fn between(&mut self, least: i64, greatest: i64) -> i64 {
        let size = greatest.abs_diff(least) + 1;
        least + (self.word() % size) as i64
    }

    pub fn index(&mut self, length: usize) -> usize {
        (self.word() % length as u64) as usize
    }

    pub fn pick<T: Copy>(&mut self, items: &[T]) -> T {
        items[self.index(items.len())]
    }

    pub fn byte(&mut self) -> u8 {
        self.word() as u8
    }

    /// True so many times in a hundred.
    pub fn chance(&mut self, percent: u64) -> bool {
        self.word() % 100 < percent
    }
}
