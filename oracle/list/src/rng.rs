//! A small generator, so that the list is the same wherever it is made.

/// Marsaglia's xorshift64.
pub struct Rng(u64);

impl Rng {
    /// A seed that is not 0.
    pub fn new(seed: u64) -> Self {
        Rng(seed)
    }

    pub fn word(&mut self) -> u32 {
        self.0 ^= self.0 << 13;
        self.0 ^= self.0 >> 7;
        self.0 ^= self.0 << 17;
        (self.0 >> 32) as u32
    }

    pub fn index(&mut self, end: usize) -> usize {
        self.word() as usize % end
    }

    pub fn chance(&mut self, percent: usize) -> bool {
        self.index(100) < percent
    }

    pub fn pick<T: Copy>(&mut self, list: &[T]) -> T {
        list[self.index(list.len())]
    }
}
