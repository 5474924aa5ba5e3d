//! How much is compared, and what a random call gets wrong.

use cases::Rng;
use reference::answer::ELEMENT_LIMIT;

#[derive(Clone, Copy, PartialEq, Eq)]
pub enum Mode {
    Quick,
    Whole,
}

impl Mode {
    /// `n` random calls, ten times as many for the whole.
    pub fn calls(self, n: usize) -> usize {
        match self {
            Mode::Quick => n,
            Mode::Whole => 10 * n,
        }
    }
}

/// One random call: the source's length, the destination's, whether settings and how many elements are bad.
pub struct Plan {
    pub n: usize,
    pub m: usize,
    pub bad_setting: bool,
    pub bad_elements: usize,
}

/// Half of the calls have no fault but, rarely, their length; the others have any number of them.
pub fn plan(rng: &mut Rng) -> Plan {
    let n = match rng.below(4000) {
        0 => ELEMENT_LIMIT,
        1 => ELEMENT_LIMIT + 1,
        2 => ELEMENT_LIMIT + 1 + rng.below(4000),
        3 => rng.below(ELEMENT_LIMIT),
        _ => rng.below(40),
    };
    let mut plan = Plan { n, m: n, bad_setting: false, bad_elements: 0 };
    if rng.one_in(2) {
        plan.m = if rng.one_in(4) { other_length(rng, n) } else { n };
        plan.bad_setting = rng.one_in(4);
        plan.bad_elements = if rng.one_in(2) { 1 + rng.below(3) } else { 0 };
    }
    plan
}

pub fn other_length(rng: &mut Rng, n: usize) -> usize {
    match rng.below(4) {
        0 => n + 1,
        1 => n.saturating_sub(1),
        2 => 0,
        _ => rng.below(40),
    }
}

/// Puts `count` drawn elements at random places.
pub fn spoil(rng: &mut Rng, xs: &mut [f32], count: usize, draw: impl Fn(&mut Rng) -> f32) {
    for _ in 0..count {
        if !xs.is_empty() {
            let at = rng.below(xs.len());
            xs[at] = draw(rng);
        }
    }
}

/// What a destination holds before a call: any pattern, NaNs among them.
pub fn stale(rng: &mut Rng, n: usize) -> Vec<f32> {
    rng.list(n, |r| if r.one_in(2) { r.not_finite() } else { f32::from_bits(r.word()) })
}

/// A setting: mostly of ordinary size, not finite where asked.
pub fn setting(rng: &mut Rng, bad: bool) -> f32 {
    if bad {
        rng.not_finite()
    } else if rng.one_in(3) {
        rng.mixed()
    } else {
        rng.unit() * 3.0
    }
}
