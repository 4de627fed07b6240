//! A small seeded generator (SplitMix64): the same seed gives the same cases on every machine.

pub struct Random(u64);

impl Random {
    /// A generator for the case with this index of this seed's list, so that a case can be made again alone.
    pub fn new(seed: u64, index: u64) -> Random {
        let mut mixed = Random(seed);
        Random(mixed.bits() ^ Random(index).bits())
    }

    pub fn bits(&mut self) -> u64 {
        self.0 = self.0.wrapping_add(0x9E37_79B9_7F4A_7C15);
        let z = (self.0 ^ (self.0 >> 30)).wrapping_mul(0xBF58_476D_1CE4_E5B9);
        let z = (z ^ (z >> 27)).wrapping_mul(0x94D0_49BB_1331_11EB);
        z ^ (z >> 31)
    }

    /// A number below `end`, which is above 0.
    pub fn below(&mut self, end: usize) -> usize {
        (self.bits() % end as u64) as usize
    }

    pub fn chance(&mut self, percent: usize) -> bool {
        self.below(100) < percent
    }

    pub fn pick<T: Copy>(&mut self, from: &[T]) -> T {
        from[self.below(from.len())]
    }
}
