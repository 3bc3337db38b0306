//! Numbers that a seed gives, the same on every machine: SplitMix64.

#[derive(Clone, Debug)]
pub struct Rng(u64);

impl Rng {
    pub fn new(seed: u64) -> Self {
        Rng(seed)
    }

    /// The numbers of one round of a run, so that a round can be repeated alone.
    pub fn of_round(seed: u64, round: u64) -> Self {
        let mut rng = Rng(seed ^ round.wrapping_mul(0xD6E8_FEB8_6659_FD93));
        rng.word();
        rng
    }

    pub fn word(&mut self) -> u64 {
        self.0 = self.0.wrapping_add(0x9E37_79B9_7F4A_7C15);
        let mut z = self.0;
        z = (z ^ (z >> 30)).wrapping_mul(0xBF58_476D_1CE4_E5B9);
        z = (z ^ (z >> 27)).wrapping_mul(0x94D0_49BB_1331_11EB);
        z ^ (z >> 31)
    }

    pub fn bits(&mut self) -> u32 {
        (self.word() >> 32) as u32
    }

    /// From 0 to below n.
    pub fn below(&mut self, n: u64) -> u64 {
        self.word() % n
    }

    /// From low to high, both included.
    pub fn within(&mut self, low: i64, high: i64) -> i64 {
        low + self.below((high - low + 1) as u64) as i64
    }

    /// True once in so many.
    pub fn once_in(&mut self, n: u64) -> bool {
        self.below(n) == 0
    }

    /// From 0 to 1.
    pub fn unit(&mut self) -> f64 {
        (self.word() >> 11) as f64 / (1u64 << 53) as f64
    }

    pub fn pick<T: Copy>(&mut self, of: &[T]) -> T {
        of[self.below(of.len() as u64) as usize]
    }

    /// A number up to `most` whose length in bits is as random as its bits.
    pub fn any_length(&mut self, most: u64) -> u64 {
        let bits = self.within(0, i64::from(64 - most.leading_zeros()));
        (self.word() & ((1u64 << bits) - 1)).clamp(1, most)
    }
}
