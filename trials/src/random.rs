//! Numbers by chance, the same from the same seed on every machine.

/// A generator of one case: SplitMix64, begun from the seed, the suite and the case's number.
#[derive(Clone, Debug)]
pub struct Random(u64);

impl Random {
    /// The generator of case number `case` of a suite.
    pub fn new(seed: u64, suite: &str, case: u64) -> Random {
        let mut random = Random(seed);
        for byte in suite.bytes() {
            random.0 = random.word() ^ u64::from(byte);
        }
        random.0 = random.word() ^ case;
        random.word();
        random
    }

    /// 64 bits.
    pub fn word(&mut self) -> u64 {
        self.0 = self.0.wrapping_add(0x9E37_79B9_7F4A_7C15);
        let mut z = self.0;
        z = (z ^ (z >> 30)).wrapping_mul(0xBF58_476D_1CE4_E5B9);
        z = (z ^ (z >> 27)).wrapping_mul(0x94D0_49BB_1331_11EB);
        z ^ (z >> 31)
    }

    /// A number below `bound`, which is above 0.
    pub fn below(&mut self, bound: usize) -> usize {
        ((u128::from(self.word()) * bound as u128) >> 64) as usize
    }

    /// A number from `least` to `most`, both counted in.
    pub fn from_to(&mut self, least: usize, most: usize) -> usize {
        least + self.below(most - least + 1)
    }

    /// True once in `times`.
    pub fn once_in(&mut self, times: usize) -> bool {
        self.below(times) == 0
    }

    /// One of these.
    pub fn one_of<T: Copy>(&mut self, of: &[T]) -> T {
        of[self.below(of.len())]
    }

    /// A number below `bound`, small ones as likely as large ones.
    pub fn scaled(&mut self, bound: usize) -> usize {
        let bits = usize::BITS - bound.leading_zeros();
        let mask = (1usize << self.from_to(1, bits as usize)) - 1;
        (self.word() as usize & mask) % bound
    }
}
