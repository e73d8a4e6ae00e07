//! Numbers that look random and are fixed by their seed.

/// The state of a row of such numbers.
#[derive(Clone)]
pub struct Random(u64);

impl Random {
    /// A row from a seed.
    pub fn new(seed: u64) -> Random {
        Random(seed)
    }

    /// The next of the row, 64 bits.
    pub fn draw(&mut self) -> u64 {
        self.0 = self.0.wrapping_add(0x9e37_79b9_7f4a_7c15);
        let mut z = self.0;
        z = (z ^ (z >> 30)).wrapping_mul(0xbf58_476d_1ce4_e5b9);
        z = (z ^ (z >> 27)).wrapping_mul(0x94d0_49bb_1331_11eb);
        z ^ (z >> 31)
    }

    /// A number from `low` to `high`, both included.
    pub fn from(&mut self, low: i128, high: i128) -> i128 {
        low + self.draw() as i128 % (high - low + 1)
    }

    /// A number from 0 up to and without `end`.
    pub fn below(&mut self, end: usize) -> usize {
        self.from(0, end as i128 - 1) as usize
    }

    /// Yes, in so many of a hundred cases.
    pub fn percent(&mut self, cases: i128) -> bool {
        self.from(1, 100) <= cases
    }

    /// One of a list.
    pub fn one<T: Copy>(&mut self, list: &[T]) -> T {
        list[self.below(list.len())]
    }
}
