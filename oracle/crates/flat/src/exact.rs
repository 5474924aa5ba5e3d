//! The exact sum of weights, in units of 2^-149, by whole numbers.

/// What lies above 2^149 units, or below where it is negative: `high` * 2^64 + `low`.
#[derive(Clone, Copy)]
pub struct Apart {
    high: i128,
    low: u64,
}

impl Apart {
    pub fn of(weights: &[f32]) -> Apart {
        let (mut high, mut low) = (0u128, 0u128);
        for w in weights {
            let bits = w.to_bits();
            assert!(bits >> 31 == 0 && bits <= 1f32.to_bits(), "a weight that does not lie from 0 to 1: {bits:08x}");
            // A value is m units times 2^shift; below the normal range the shift is 0, without the hidden digit.
            let (exponent, digits) = (bits >> 23, (bits & 0x7f_ffff) as u128);
            let (m, shift) = if exponent == 0 { (digits, 0) } else { (digits | 1 << 23, exponent - 1) };
            if shift < 64 {
                low += m << shift;
            } else {
                high += m << (shift - 64);
            }
        }
        Apart { high: (high + (low >> 64)) as i128 - (1 << (149 - 64)), low: low as u64 }
    }

    /// At most (n + 2) * 2^125 units, on either side.
    pub fn within(self, n: usize) -> bool {
        let most = (n as i128 + 2) << (125 - 64);
        -most <= self.high && (self.high < most || self.high == most && self.low == 0)
    }

    /// As a part of (n + 2) * 2^125, with its sign; rounded, for the search and for print.
    pub fn part(self, n: usize) -> f64 {
        (self.high as f64 + self.low as f64 / 2f64.powi(64)) / ((n as f64 + 2.0) * 2f64.powi(125 - 64))
    }
}

#[cfg(test)]
mod tests {
    use super::Apart;

    const LEAST: f32 = f32::from_bits(1);

    /// 2^-22 of the whole is 4 * 2^125 units, what two weights may be apart, and 2^-149 is one unit.
    #[test]
    fn the_bound_of_two_weights() {
        let step = 2f32.powi(-22);
        assert!(Apart::of(&[1.0, step]).within(2));
        assert!(!Apart::of(&[1.0, step, LEAST]).within(2));
        assert!(Apart::of(&[1.0 - step, 0.0]).within(2));
        assert!(Apart::of(&[1.0 - step, LEAST]).within(2));
        assert!(!Apart::of(&[1.0 - step - 2f32.powi(-24), 0.0]).within(2));
    }

    #[test]
    fn parts_of_the_bound() {
        assert_eq!(Apart::of(&[0.25; 4]).part(4), 0.0);
        assert_eq!(Apart::of(&[1.0, 2f32.powi(-23)]).part(2), 0.5);
        assert_eq!(Apart::of(&[1.0 - 2f32.powi(-24)]).part(6), -0.125);
    }
}
