//! The twelve operators, and their call over slices.

#![allow(clippy::excessive_precision, clippy::approx_constant)]

use crate::answer::{Answer, DONE, ELEMENT_LIMIT, at_first, judged, when};
use crate::bits::{INF, abs, finite, neg, round_even, to_int};

#[derive(Clone, Copy, Debug)]
pub enum Op {
    Exp,
    ReducedRangeExp,
    Sigmoid,
    Silu,
    Swish(f32),
    Elu(f32),
    Tanh,
    Erf,
    Gelu,
    ApproxGelu,
    Sin,
    Cos,
}

pub fn eval(op: Op, x: f32) -> f32 {
    match op {
        Op::Exp => exp(x),
        Op::ReducedRangeExp => reduced_range_exp(x),
        Op::Sigmoid => sigmoid(x),
        Op::Silu => x / (1.0 + exp(neg(x))),
        Op::Swish(alpha) => x * sigmoid(x * alpha),
        Op::Elu(alpha) => {
            if x >= 0.0 {
                x
            } else {
                alpha * (exp(x) - 1.0)
            }
        }
        Op::Tanh => tanh(x),
        Op::Erf => erf(x),
        Op::Gelu => (x * 0.5) * (erf(x * (1.0f32 / SQRT_2)) + 1.0),
        Op::ApproxGelu => {
            let cubed = (x * x) * x;
            let y = (cubed * 0.044715 + x) * 0.7978845608028654;
            (x * 0.5) * (tanh(y) + 1.0)
        }
        Op::Sin => sine(reduce_turns(x)),
        Op::Cos => sine(1.5707964 - reduce_turns(x)),
    }
}

/// The request of document 02 by which the result here is another than the text's.
pub fn departs(op: Op, x: f32) -> Option<&'static str> {
    match op {
        Op::Tanh if x.to_bits() == 0 => Some("L4"),
        _ => None,
    }
}

pub fn in_domain(op: Op, x: f32) -> bool {
    match op {
        Op::ReducedRangeExp => finite(x) && x <= 0.0,
        Op::Sin | Op::Cos => finite(x) && abs(x) < 48_000.0,
        _ => finite(x),
    }
}

pub fn apply(op: Op, src: &[f32], dst: &mut [f32]) -> Answer {
    let alpha = match op {
        Op::Swish(alpha) | Op::Elu(alpha) => alpha,
        _ => 0.0,
    };
    let answer = judged(&[
        when(src.len() != dst.len(), 1),
        when(src.len() > ELEMENT_LIMIT, 2),
        when(!finite(alpha), 3),
        at_first(src.len(), 4, |i| !in_domain(op, src[i])),
    ]);
    if answer == DONE {
        for (y, &x) in dst.iter_mut().zip(src) {
            *y = eval(op, x);
        }
    }
    answer
}

const LOG2_E: f32 = 1.442_695_040_888_963_4;
const LN_2: f32 = 0.693_147_180_559_945_3;
const SQRT_2: f32 = 1.414_213_562_373_095_1;
const MAGIC: f32 = 12582912.0;
const EXP_POLY: [f32; 7] = [1.0, 1.0, 4.99999851e-1, 1.66664720e-1, 4.16695364e-2, 8.37312452e-3, 1.37805939e-3];

/// The nearest k to x times log2 e, and the polynomial of what is left.
#[inline(always)]
fn exp_parts(x: f32) -> (u32, f32) {
    let j = (x * LOG2_E + MAGIC) - MAGIC;
    let r = j * -6.93145752e-1 + x;
    let r = j * -1.42860677e-6 + r;
    let mut p = EXP_POLY[6];
    for i in (0..6).rev() {
        p = p * r + EXP_POLY[i];
    }
    (to_int(j) as u32, p)
}

pub fn exp(x: f32) -> f32 {
    if x >= 104.0 {
        return INF;
    }
    if x <= -104.0 {
        return 0.0;
    }
    let (k, p) = exp_parts(x);
    let a: u32 = if (k as i32) > 0 { 0 } else { 0x8300_0000 };
    let s = a.wrapping_add(0x7f00_0000);
    let t = (k << 23).wrapping_sub(a);
    (p * f32::from_bits(s)) * f32::from_bits(t)
}

pub fn reduced_range_exp(x: f32) -> f32 {
    let product: f32 = -126.5 * LN_2;
    if x < product + 0.01 {
        return 0.0;
    }
    let (k, p) = exp_parts(x);
    p * f32::from_bits(k.wrapping_add(127) << 23)
}

fn sigmoid(x: f32) -> f32 {
    1.0 / (1.0 + exp(neg(x)))
}

const TANH_POLY: [f32; 5] = [
    0.999999940395355224609375,
    -0.33332359790802001953125,
    0.13310669362545013427734375,
    -5.21197654306888580322265625e-2,
    1.5497927553951740264892578125e-2,
];

fn tanh(x: f32) -> f32 {
    if x == 0.0 {
        return x;
    }
    let y = tanh_of_size(abs(x));
    if x <= 0.0 { neg(y) } else { y }
}

fn tanh_of_size(a: f32) -> f32 {
    if a <= 0.0004 {
        return a;
    }
    if a <= 0.55 {
        let q = a * a;
        let mut y = TANH_POLY[4];
        for i in (0..4).rev() {
            y = y * q + TANH_POLY[i];
        }
        return y * a;
    }
    if a >= 9.02 {
        return 1.0;
    }
    let e = exp(a * 2.0);
    (e - 1.0) / (e + 1.0)
}

fn erf(x: f32) -> f32 {
    let a = abs(x);
    let t = 1.0 / (a * 0.3275911 + 1.0);
    let mut p: f32 = 1.061405429;
    for c in [-1.453152027, 1.421413741, -0.284496736, 0.254829592] {
        p = p * t + c;
    }
    let y = 1.0 - (p * t) * reduced_range_exp(neg(a * a));
    if x < 0.0 { neg(y) } else { y }
}

/// x less its nearest whole number of turns, in two steps.
#[inline(always)]
fn reduce_turns(x: f32) -> f32 {
    let k = round_even(x * 0.15915494);
    let r = x - k * 6.28125;
    r - k * 1.9353072e-3
}

/// The sine of r, folded to a quarter turn, by the rational form.
#[inline(always)]
fn sine(mut r: f32) -> f32 {
    let pi: f32 = 3.1415927;
    if pi - r < r {
        r = pi - r;
    }
    if neg(pi) - r > r {
        r = neg(pi) - r;
    }
    if pi - r < r {
        r = pi - r;
    }
    let q = r * r;
    let upper = (q * (q * 3.2340581529e-03 + -1.3314664364e-01) + 1.0) * r;
    let lower = q * (q * 4.8770775902e-04 + 3.3519912511e-02) + 1.0;
    upper / lower
}
