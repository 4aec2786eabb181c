//! A small generator of random numbers: the same seed always gives the same numbers.

pub struct Random(u64);

impl Random {
    /// The numbers of one item of a seed, apart from those of its other items.
    pub fn new(seed: u64, item: u64) -> Random {
        let mut random = Random(seed);
        random.0 = random.bits().wrapping_add(item);
        random.0 = random.bits();
        random
    }

    /// The next 64 bits (the generator known as splitmix64).
    pub fn bits(&mut self) -> u64 {
        self.0 = self.0.wrapping_add(0x9E37_79B9_7F4A_7C15);
        let mut z = self.0;
        z = (z ^ (z >> 30)).wrapping_mul(0xBF58_476D_1CE4_E5B9);
        z = (z ^ (z >> 27)).wrapping_mul(0x94D0_49BB_1331_11EB);
        z ^ (z >> 31)
    }

    /// A number from `low` to `high`, both possible.
    pub fn between(&mut self, low: usize, high: usize) -> usize {
        low + (self.bits() % (high - low + 1) as u64) as usize
    }

    /// A byte from `low` to `high`, both possible.
    pub fn byte(&mut self, low: u8, high: u8) -> u8 {
        self.between(low as usize, high as usize) as u8
    }

    /// True in so many of a hundred cases.
    pub fn percent(&mut self, percent: usize) -> bool {
        self.between(0, 99) < percent
    }

    pub fn pick<T: Copy>(&mut self, items: &[T]) -> T {
        items[self.between(0, items.len() - 1)]
    }

    /// The number of a member of a set that isn't empty.
    pub fn member(&mut self, set: u32) -> usize {
        let nth = self.between(1, set.count_ones() as usize);
        let members = (0..32).filter(|i| set >> i & 1 == 1);
        members.take(nth).last().expect("a set that isn't empty")
    }
}
