//! A small generator of random numbers (SplitMix64), so that a seed gives the same calls everywhere.
//! Numbers at a border come from `about` and `pick`.

pub(crate) struct Rng(u64);

impl Rng {
    pub fn new(seed: u64) -> Rng {
        Rng(seed)
    }

    /// The generator of one call.
    pub fn for_call(seed: u64, number: u64) -> Rng {
        Rng(Rng(seed).next() ^ Rng(number).next().rotate_left(32))
    }

    pub fn next(&mut self) -> u64 {
        self.0 = self.0.wrapping_add(0x9E37_79B9_7F4A_7C15);
        let mut z = self.0;
        z = (z ^ (z >> 30)).wrapping_mul(0xBF58_476D_1CE4_E5B9);
        z = (z ^ (z >> 27)).wrapping_mul(0x94D0_49BB_1331_11EB);
        z ^ (z >> 31)
    }

    pub fn word(&mut self) -> u32 {
        (self.next() >> 32) as u32
    }

    pub fn byte(&mut self) -> u8 {
        (self.next() >> 56) as u8
    }

    pub fn flag(&mut self) -> bool {
        self.next() >> 63 == 1
    }

    /// A number below `end`, which is not 0.
    pub fn below(&mut self, end: usize) -> usize {
        ((u128::from(self.next()) * end as u128) >> 64) as usize
    }

    pub fn chance(&mut self, percent: usize) -> bool {
        self.below(100) < percent
    }

    pub fn pick<T: Copy>(&mut self, list: &[T]) -> T {
        list[self.below(list.len())]
    }

    /// A number at a border or up to two beside it; past the ends of 32 bits it wraps.
    pub fn about(&mut self, border: u32) -> u32 {
        border.wrapping_add(self.pick(&[0, 0, 1, 2, u32::MAX, u32::MAX - 1]))
    }

    /// A number whose size is random too, so that small ones are not rare.
    pub fn sized(&mut self) -> u32 {
        self.word() >> self.below(32)
    }
}
