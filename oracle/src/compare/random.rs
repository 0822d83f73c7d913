//! Numbers that look random and depend on the seed alone (the generator splitmix64).

pub struct Random(u64);

impl Random {
    /// The numbers for one text: each text can be made without those before it.
    pub fn new(seed: u64, family: u64, index: u64) -> Self {
        let mut random = Random(seed);
        for part in [family, index] {
            random.0 = random.next() ^ part;
        }
        random
    }

    fn next(&mut self) -> u64 {
        self.0 = self.0.wrapping_add(0x9e37_79b9_7f4a_7c15);
        let mut z = self.0;
        z = (z ^ (z >> 30)).wrapping_mul(0xbf58_476d_1ce4_e5b9);
        z = (z ^ (z >> 27)).wrapping_mul(0x94d0_49bb_1331_11eb);
        z ^ (z >> 31)
    }

    /// A number below n, which is not 0.
    pub fn below(&mut self, n: usize) -> usize {
        ((u128::from(self.next()) * n as u128) >> 64) as usize
    }

    /// True once in n times.
    pub fn once_in(&mut self, n: usize) -> bool {
        self.below(n) == 0
    }

    pub fn pick<'a, T: ?Sized>(&mut self, row: &[&'a T]) -> &'a T {
        row[self.below(row.len())]
    }

    pub fn byte_of(&mut self, row: &[u8]) -> u8 {
        row[self.below(row.len())]
    }

    pub fn byte(&mut self) -> u8 {
        self.next() as u8
    }

    /// A number up to most, the small ones more often: one below a power of two, each power as often as the next.
    pub fn size(&mut self, most: usize) -> usize {
        let bits = self.below(most.ilog2() as usize + 2);
        self.below(1 << bits).min(most)
    }
}
