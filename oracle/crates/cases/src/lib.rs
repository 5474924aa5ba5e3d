//! Pseudo-random inputs, the same on every run.

/// xorshift64*, seeded by a name.
pub struct Rng(u64);

impl Rng {
    pub fn new(name: &str) -> Rng {
        Rng(name.bytes().fold(0xcbf2_9ce4_8422_2325, |h, b| (h ^ b as u64).wrapping_mul(0x100_0000_01b3)))
    }
    pub fn word(&mut self) -> u32 {
        self.0 ^= self.0 >> 12;
        self.0 ^= self.0 << 25;
        self.0 ^= self.0 >> 27;
        (self.0.wrapping_mul(0x2545_F491_4F6C_DD1D) >> 32) as u32
    }
    pub fn below(&mut self, n: usize) -> usize {
        self.word() as usize % n
    }
    /// One time in `n`.
    pub fn one_in(&mut self, n: usize) -> bool {
        self.below(n) == 0
    }
    pub fn pick<T: Copy>(&mut self, from: &[T]) -> T {
        from[self.below(from.len())]
    }
    /// In [-1, 1), by steps of 2^-23.
    pub fn unit(&mut self) -> f32 {
        (self.word() >> 8) as f32 / 8388608.0 - 1.0
    }
    /// Any finite pattern.
    pub fn finite(&mut self) -> f32 {
        loop {
            let x = f32::from_bits(self.word());
            if x.is_finite() {
                return x;
            }
        }
    }
    /// Zeros and ends, ordinary sizes, any finite pattern.
    pub fn mixed(&mut self) -> f32 {
        match self.below(8) {
            0 => self.pick(&ENDS),
            1 => self.finite(),
            2 => self.unit() * 1e-3,
            3 => self.unit() * 1e6,
            _ => self.unit() * 20.0,
        }
    }
    /// A NaN of either sign with any payload, or an infinity.
    pub fn not_finite(&mut self) -> f32 {
        f32::from_bits(self.word() & 0x8000_0000 | 0x7f80_0000 | if self.one_in(3) { 0 } else { self.word() >> 9 })
    }
    pub fn list(&mut self, n: usize, mut draw: impl FnMut(&mut Rng) -> f32) -> Vec<f32> {
        (0..n).map(|_| draw(self)).collect()
    }
}

/// Zeros, units, the ends of the subnormal, normal and finite ranges.
pub const ENDS: [f32; 14] = [
    0.0,
    -0.0,
    1.0,
    -1.0,
    0.5,
    -0.5,
    f32::MAX,
    f32::MIN,
    f32::from_bits(1),
    f32::from_bits(0x8000_0001),
    f32::from_bits(0x007f_ffff),
    f32::MIN_POSITIVE,
    -f32::MIN_POSITIVE,
    12582912.0,
];
