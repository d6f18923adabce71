//! Numbers drawn at random, the same for the same seed and case.

/// A generator of 64 bits (SplitMix64, by Steele, Lea and Flood).
pub struct Draws(u64);

impl Draws {
    /// The draws of a case.
    pub fn of(seed: u64, case: u64) -> Draws {
        let mut draws = Draws(seed ^ case.wrapping_mul(0xd134_2543_de82_ef95));
        draws.next();
        draws
    }

    pub fn next(&mut self) -> u64 {
        self.0 = self.0.wrapping_add(0x9e37_79b9_7f4a_7c15);
        let mut z = self.0;
        z = (z ^ (z >> 30)).wrapping_mul(0xbf58_476d_1ce4_e5b9);
        z = (z ^ (z >> 27)).wrapping_mul(0x94d0_49bb_1331_11eb);
        z ^ (z >> 31)
    }

    /// A number below `n`.
    pub fn below(&mut self, n: u64) -> u64 {
        ((self.next() as u128 * n as u128) >> 64) as u64
    }

    /// A number from `least` to `most`.
    pub fn from_to(&mut self, least: u64, most: u64) -> u64 {
        least + self.below(most - least + 1)
    }

    /// One time in `n`.
    pub fn one_in(&mut self, n: u64) -> bool {
        self.below(n) == 0
    }

    pub fn pick<T: Copy>(&mut self, all: &[T]) -> T {
        all[self.below(all.len() as u64) as usize]
    }

    /// A number of up to `bits` bits, each length as likely: small ones come often.
    pub fn of_any_size(&mut self, bits: u64) -> u64 {
        let width = self.from_to(1, bits);
        self.next() >> (64 - width)
    }
}
