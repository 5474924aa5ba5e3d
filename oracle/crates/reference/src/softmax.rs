//! Softmax: maximum, exponentials of x less the maximum, their sum, each times the sum's reciprocal.

use crate::answer::{Answer, DONE, ELEMENT_LIMIT, Test, at_first, judged, when};
use crate::bits::{INF, finite, neg};
use crate::extremes::largest_from;
use crate::unary::reduced_range_exp;

pub fn masked(x: f32) -> bool {
    x == neg(INF)
}

/// Finite or masked.
pub fn in_domain(x: f32) -> bool {
    finite(x) || masked(x)
}

pub fn all_masked(xs: &[f32]) -> bool {
    !xs.is_empty() && xs.iter().all(|&x| masked(x))
}

/// The weights of a list in the domain; zeros where all of it is masked.
pub fn weights(xs: &[f32]) -> Vec<f32> {
    if all_masked(xs) {
        return vec![0.0; xs.len()];
    }
    let maximum = largest_from(f32::from_bits(0xff7f_ffff), xs);
    let exps: Vec<f32> = xs.iter().map(|&x| reduced_range_exp(x - maximum)).collect();
    let total = exps.iter().fold(0.0, |s, &e| s + e);
    let factor = 1.0 / total;
    exps.iter().map(|&e| e * factor).collect()
}

fn refusals(flush: bool, xs: &[f32]) -> [Test; 3] {
    [when(xs.len() > ELEMENT_LIMIT, 2), at_first(xs.len(), 4, |i| !in_domain(xs[i])), when(!flush && all_masked(xs), 5)]
}

pub fn softmax(flush: bool, src: &[f32], dst: &mut [f32]) -> Answer {
    let length = when(src.len() != dst.len(), 1);
    let [many, outside, none] = refusals(flush, src);
    let answer = judged(&[length, many, outside, none]);
    if answer == DONE {
        dst.copy_from_slice(&weights(src));
    }
    answer
}

pub fn softmax_in_place(flush: bool, data: &mut [f32]) -> Answer {
    let answer = judged(&refusals(flush, data));
    if answer == DONE {
        let new = weights(data);
        data.copy_from_slice(&new);
    }
    answer
}
