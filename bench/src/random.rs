//! A small seeded generator (SplitMix64).

/// The step from one state to the next, and SplitMix64's two mixers.
const STEP: u64 = 0x9e37_79b9_7f4a_7c15;
const MIXERS: [u64; 2] = [0xbf58_476d_1ce4_e5b9, 0x94d0_49bb_1331_11eb];

pub struct Random(u64);

impl Random {
    pub fn new(seed: u64) -> Self {
        Random(seed)
    }

    fn next(&mut self) -> u64 {
        self.0 = self.0.wrapping_add(STEP);
        let mut mixed = self.0;
        mixed = (mixed ^ (mixed >> 30)).wrapping_mul(MIXERS[0]);
        mixed = (mixed ^ (mixed >> 27)).wrapping_mul(MIXERS[1]);
        mixed ^ (mixed >> 31)
    }

    /// A number below a bound.
    pub fn below(&mut self, bound: usize) -> usize {
        // The high half as a fraction of the bound: no division.
        (((self.next() >> 32) * bound as u64) >> 32) as usize
    }

    /// One of the numbers below a count that are wanted, if there is one.
    pub fn wanted(&mut self, count: u8, wanted: impl Fn(u8) -> bool) -> Option<u8> {
        let numbers: Vec<u8> = (0..count).filter(|&n| wanted(n)).collect();
        match numbers.len() {
            0 => None,
            many => Some(numbers[self.below(many)]),
        }
    }
}
