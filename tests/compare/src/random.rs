//! A small seeded generator (SplitMix64).

/// The step from one state to the next, and SplitMix64's two mixers.
const STEP: u64 = 0x9e37_79b9_7f4a_7c15;
const MIXERS: [u64; 2] = [0xbf58_476d_1ce4_e5b9, 0x94d0_49bb_1331_11eb];

pub struct Random(u64);

impl Random {
    /// The generator of one case. Each part is mixed in by itself, so that a
    /// case can be made again without the cases before it.
    pub fn of_case(seed: u64, family: u64, number: u64) -> Self {
        let mut random = Random(seed);
        for part in [family, number] {
            random.0 = random.next() ^ part;
        }
        random
    }

    pub fn next(&mut self) -> u64 {
        self.0 = self.0.wrapping_add(STEP);
        let mut mixed = self.0;
        mixed = (mixed ^ (mixed >> 30)).wrapping_mul(MIXERS[0]);
        mixed = (mixed ^ (mixed >> 27)).wrapping_mul(MIXERS[1]);
        mixed ^ (mixed >> 31)
    }

    pub fn byte(&mut self) -> u8 {
        self.next() as u8
    }

    pub fn word(&mut self) -> u32 {
        self.next() as u32
    }

    /// A number below a bound; 0 where the bound is 0.
    pub fn below(&mut self, bound: usize) -> usize {
        // The high half as a fraction of the bound: no division.
        (((self.next() >> 32) * bound as u64) >> 32) as usize
    }

    /// A byte below a bound; 0 where the bound is 0.
    pub fn byte_below(&mut self, bound: u8) -> u8 {
        self.below(bound.into()) as u8
    }

    /// A number from the first to the last.
    pub fn between(&mut self, first: usize, last: usize) -> usize {
        first + self.below(last - first + 1)
    }

    /// One chance in so many.
    pub fn once_in(&mut self, many: usize) -> bool {
        self.below(many) == 0
    }

    /// One chance in two.
    pub fn half(&mut self) -> bool {
        self.once_in(2)
    }

    /// One of some values, of which there is at least one.
    pub fn among<T: Copy>(&mut self, values: &[T]) -> T {
        values[self.below(values.len())]
    }

    /// A number below a bound that is wanted, if there is one.
    pub fn wanted(&mut self, bound: u8, wanted: impl Fn(u8) -> bool) -> Option<u8> {
        let start = self.byte_below(bound);
        (start..bound).chain(0..start).find(|&n| wanted(n))
    }
}
