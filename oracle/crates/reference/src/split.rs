//! Split: whole parts of 32768 by the softmax weights.

use crate::answer::{Answer, DONE, at_first, judged, when};
use crate::softmax::{all_masked, in_domain, weights};

pub const PARTS: u64 = 32768;
/// Request L7's.
pub const BAND_LIMIT: usize = 64;
/// A weight of 1 is 2^30 steps (request L6).
pub const STEP_BITS: i32 = 30;

/// A weight from 0 to 1, times 2^step_bits, to the nearest whole number, ties to even.
pub fn steps(step_bits: i32, weight: f32) -> u64 {
    let bits = weight.to_bits();
    let exponent = (bits >> 23) as i32;
    let digits = (bits & 0x7f_ffff) as u64;
    let (digits, scale) = if exponent == 0 { (digits, -149) } else { (digits | 0x80_0000, exponent - 150) };
    let shift = scale + step_bits;
    if shift >= 0 {
        return digits << shift;
    }
    if shift < -25 {
        return 0;
    }
    let unit = 1u64 << -shift;
    let (whole, rest) = (digits / unit, digits % unit);
    let up = 2 * rest > unit || (2 * rest == unit && whole % 2 == 1);
    whole + up as u64
}

pub fn gains(weights: &[f32]) -> Vec<u16> {
    gains_in(STEP_BITS, weights)
}

/// Each band's whole part, then the parts left over to the largest remainders, equal ones to the lower band.
pub fn gains_in(step_bits: i32, weights: &[f32]) -> Vec<u16> {
    let a: Vec<u64> = weights.iter().map(|&w| steps(step_bits, w)).collect();
    let total: u64 = a.iter().sum();
    let mut gains: Vec<u64> = a.iter().map(|a| PARTS * a / total).collect();
    let left = PARTS - gains.iter().sum::<u64>();
    let mut order: Vec<usize> = (0..a.len()).collect();
    // A stable sort: equal remainders stay in the order of the bands.
    order.sort_by_key(|&i| std::cmp::Reverse(PARTS * a[i] % total));
    for &i in order.iter().take(left as usize) {
        gains[i] += 1;
    }
    gains.iter().map(|&g| g as u16).collect()
}

pub fn split(levels: &[f32], out: &mut [u16]) -> Answer {
    let answer = judged(&[
        when(levels.is_empty() || levels.len() > BAND_LIMIT, 7),
        when(levels.len() != out.len(), 1),
        at_first(levels.len(), 4, |i| !in_domain(levels[i])),
        when(all_masked(levels), 5),
    ]);
    if answer == DONE {
        out.copy_from_slice(&gains(&weights(levels)));
    }
    answer
}
