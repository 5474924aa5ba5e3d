//! Normalize, its three arms.

use crate::answer::{Answer, DONE, ELEMENT_LIMIT, at_first, judged, when};
use crate::bits::finite;

#[derive(Clone, Copy, Debug)]
pub struct Settings {
    pub pre_scale_bias: f32,
    pub scale: f32,
    pub bias: f32,
}

/// The settings with the per-element slices that are in use.
#[derive(Clone, Copy, Debug)]
pub struct By<'a> {
    pub settings: Settings,
    pub scales: Option<&'a [f32]>,
    pub biases: Option<&'a [f32]>,
}

pub fn element(by: By, i: usize, x: f32) -> f32 {
    let Settings { pre_scale_bias, scale, bias } = by.settings;
    let y = x - pre_scale_bias;
    match (by.scales, by.biases) {
        (None, None) => y * scale + bias,
        (Some(scales), None) if bias == 0.0 => y * (scales[i] * scale),
        (scales, biases) => {
            let element_scale = scales.map_or(1.0, |s| s[i]);
            let element_bias = biases.map_or(0.0, |b| b[i]);
            y * (element_scale * scale) + (element_bias + bias)
        }
    }
}

/// What the call answers for `src`, with what it yields where done; `m` is the length lent for it.
fn judge(by: By, src: &[f32], m: usize) -> (Answer, Vec<f32>) {
    let n = src.len();
    let other = |slice: Option<&[f32]>| slice.is_some_and(|s| s.len() != n);
    let bad = |slice: Option<&[f32]>, i: usize| slice.is_some_and(|s| !finite(s[i]));
    let Settings { pre_scale_bias, scale, bias } = by.settings;
    let lengths = when(m != n || other(by.scales) || other(by.biases), 1);
    if lengths.is_some() {
        return (judged(&[lengths]), vec![]);
    }
    let new: Vec<f32> = (0..n).map(|i| element(by, i, src[i])).collect();
    let answer = judged(&[
        when(n > ELEMENT_LIMIT, 2),
        when(!(finite(pre_scale_bias) && finite(scale) && finite(bias)), 3),
        at_first(n, 4, |i| !finite(src[i]) || bad(by.scales, i) || bad(by.biases, i)),
        at_first(n, 6, |i| new[i].is_nan()),
    ]);
    (answer, new)
}

pub fn normalize(by: By, src: &[f32], dst: &mut [f32]) -> Answer {
    let (answer, new) = judge(by, src, dst.len());
    if answer == DONE {
        dst.copy_from_slice(&new);
    }
    answer
}

pub fn normalize_in_place(by: By, data: &mut [f32]) -> Answer {
    let (answer, new) = judge(by, data, data.len());
    if answer == DONE {
        data.copy_from_slice(&new);
    }
    answer
}
