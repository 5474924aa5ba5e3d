//! Inputs of one operator: ends, the patterns around its edges, powers of two, pseudo-random ones.

use cases::Rng;
use std::collections::HashSet;

/// Fewest inputs of an operator: what its edges leave is filled with pseudo-random ones.
const LEAST: usize = 118;
/// And no fewer of these.
const RANDOM: usize = 30;

/// The first pattern above `low` and up to `high` at which `p` holds; it fails at `low` and stays once it holds.
pub fn edge(low: f32, high: f32, p: impl Fn(f32) -> bool) -> f32 {
    let (mut a, mut b) = (low.to_bits(), high.to_bits());
    assert!(a < b && !p(low) && p(high));
    while b - a > 1 {
        let m = a + (b - a) / 2;
        if p(f32::from_bits(m)) { b = m } else { a = m }
    }
    f32::from_bits(b)
}

/// The inputs of one operator, in order, none twice, only those in its domain.
pub struct Inputs {
    domain: fn(f32) -> bool,
    seen: HashSet<u32>,
    pub list: Vec<f32>,
}
impl Inputs {
    pub fn new(domain: fn(f32) -> bool) -> Inputs {
        Inputs { domain, seen: HashSet::new(), list: vec![] }
    }
    pub fn put(&mut self, x: f32) {
        if (self.domain)(x) && self.seen.insert(x.to_bits()) {
            self.list.push(x);
        }
    }
    pub fn both(&mut self, x: f32) {
        self.put(x);
        self.put(-x);
    }
    /// x > 0 with the patterns on either side, both signs
    pub fn around(&mut self, x: f32) {
        for b in [x.to_bits() - 1, x.to_bits(), x.to_bits() + 1] {
            self.both(f32::from_bits(b));
        }
    }
    pub fn specials(&mut self) {
        for b in [0, 1, 0x007f_ffff, 0x0080_0000, 0x3f80_0000, 0x3f00_0000, 0x4000_0000, 0x7f7f_ffff] {
            self.both(f32::from_bits(b));
        }
    }
    pub fn powers(&mut self, exponents: &[i32]) {
        for e in exponents {
            self.both(f32::from_bits(((e + 127) as u32) << 23));
        }
    }
    /// Of four: two over [-span, span], one of any size up to it, one of any pattern.
    pub fn random(&mut self, name: &str, span: f32) {
        let mut rng = Rng::new(name);
        let upto = LEAST.max(self.list.len() + RANDOM);
        let mut i = 0;
        while self.list.len() < upto {
            let x = match i % 4 {
                0 | 2 => rng.unit() * span,
                1 => {
                    let size = rng.word() % (span.to_bits() - 0x3080_0000) + 0x3080_0000;
                    f32::from_bits(size | rng.word() & 0x8000_0000)
                }
                _ => f32::from_bits(rng.word()),
            };
            self.put(x);
            i += 1;
        }
    }
}

pub fn finite(x: f32) -> bool {
    x.is_finite()
}
pub fn at_most_zero(x: f32) -> bool {
    x.is_finite() && x <= 0.0
}
pub fn below_48000(x: f32) -> bool {
    x.abs() < 48000.0
}
/// The word k of both exponentials, as a number.
pub fn steps(x: f32) -> f32 {
    (x * std::f32::consts::LOG2_E + 12582912.0) - 12582912.0
}
