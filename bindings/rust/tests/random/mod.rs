//! Pseudo-random numbers, the same on every run.

pub struct Random(pub u64);

impl Random {
    /// Below `n`.
    pub fn below(&mut self, n: usize) -> usize {
        self.0 = self.0.wrapping_mul(6364136223846793005).wrapping_add(1442695040888963407);
        (self.0 >> 33) as usize % n
    }

    /// From -1 up to 1, in steps of 2^-20.
    pub fn unit(&mut self) -> f32 {
        (self.below(2 << 20) as f32 - 1048576.0) / 1048576.0
    }
}
