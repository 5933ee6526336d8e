//! Repeatable random numbers: splitmix64.

/// The state of the numbers of one text.
pub struct Random(u64);

impl Random {
    /// The numbers of the text with this index in the run with this seed.
    pub fn new(seed: u64, index: u64) -> Random {
        let mut start = Random(seed);
        let mixed = start.next() ^ index.wrapping_mul(0xd134_2543_de82_ef95);
        Random(mixed)
    }

    /// The next 64 bits.
    fn next(&mut self) -> u64 {
        self.0 = self.0.wrapping_add(0x9e37_79b9_7f4a_7c15);
        let mut z = self.0;
        z = (z ^ (z >> 30)).wrapping_mul(0xbf58_476d_1ce4_e5b9);
        z = (z ^ (z >> 27)).wrapping_mul(0x94d0_49bb_1331_11eb);
        z ^ (z >> 31)
    }

    /// A number from 0 up to, not including, bound; 0 if bound is 0.
    pub fn below(&mut self, bound: usize) -> usize {
        ((u128::from(self.next()) * bound as u128) >> 64) as usize
    }

    /// A number from low to high, both included.
    pub fn between(&mut self, low: usize, high: usize) -> usize {
        low + self.below(high - low + 1)
    }

    /// True this many times in a hundred.
    pub fn percent(&mut self, chance: usize) -> bool {
        self.below(100) < chance
    }

    /// Any byte.
    pub fn byte(&mut self) -> u8 {
        self.next() as u8
    }

    /// A residue modulo p.
    pub fn residue(&mut self, p: u32) -> u32 {
        self.below(p as usize) as u32
    }

    /// A residue modulo p that is not 0.
    pub fn nonzero(&mut self, p: u32) -> u32 {
        1 + self.residue(p - 1)
    }

    /// One of a list that is not empty.
    pub fn pick<T: Copy>(&mut self, list: &[T]) -> T {
        list[self.below(list.len())]
    }

    /// Puts a list into a random order.
    pub fn shuffle<T>(&mut self, list: &mut [T]) {
        for end in (1..list.len()).rev() {
            list.swap(end, self.below(end + 1));
        }
    }
}
