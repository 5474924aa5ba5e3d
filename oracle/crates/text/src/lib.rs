//! The Rust text over one lane as plain functions, the operator, sum or settings given by the reference's types.

use reference::normalize::By;
use reference::sum::Kind;
use reference::unary::Op;
use rten_simd::{SimdOp, SimdUnaryOp};
use rten_vecmath::*;
use std::mem::MaybeUninit;

pub fn eval(op: Op, x: f32) -> f32 {
    let mut y = [0.0];
    map(op, &[x], &mut y);
    y[0]
}

/// One length for both; the operator is chosen outside the loop.
pub fn map(op: Op, src: &[f32], dst: &mut [f32]) {
    match op {
        Op::Exp => run(Exp {}, src, dst),
        Op::ReducedRangeExp => run(ReducedRangeExp {}, src, dst),
        Op::Sigmoid => run(Sigmoid {}, src, dst),
        Op::Silu => run(Silu {}, src, dst),
        Op::Swish(alpha) => run(Swish { alpha }, src, dst),
        Op::Elu(alpha) => run(Elu { alpha }, src, dst),
        Op::Tanh => run(Tanh {}, src, dst),
        Op::Erf => run(Erf {}, src, dst),
        Op::Gelu => run(Gelu {}, src, dst),
        Op::ApproxGelu => run(ApproxGelu {}, src, dst),
        Op::Sin => run(Sin::new(), src, dst),
        Op::Cos => run(Cos::new(), src, dst),
    }
}

fn run(op: impl SimdUnaryOp<f32>, src: &[f32], dst: &mut [f32]) {
    op.map(src, unwritten(dst));
}

fn unwritten<T>(dst: &mut [T]) -> &mut [MaybeUninit<T>] {
    // SAFETY: the layouts agree, and the text only writes whole elements.
    unsafe { &mut *(dst as *mut [T] as *mut [MaybeUninit<T>]) }
}

pub fn sum(kind: Kind, xs: &[f32]) -> f32 {
    match kind {
        Kind::Sum => Sum::new(xs).dispatch(),
        Kind::SumSquare => SumSquare::new(xs).dispatch(),
        Kind::SumAbs => SumAbs::new(xs).dispatch(),
        Kind::SumSquareSub(offset) => SumSquareSub::new(xs, offset).dispatch(),
        Kind::SumExpSub(offset) => SumExpSub::new(xs, offset).dispatch(),
    }
}

/// `MinMax`, `MaxNum` and `MinNum` of one list.
#[derive(Clone, Copy)]
pub struct Extremes {
    pub least: f32,
    pub largest: f32,
    pub max_num: f32,
    pub min_num: f32,
}

/// With `min` and `max` keeping the first operand on a tie, as the three single ones below.
pub fn first_kept(xs: &[f32]) -> Extremes {
    let (least, largest) = min_max(xs);
    Extremes { least, largest, max_num: max_num(xs), min_num: min_num(xs) }
}

pub fn min_max(xs: &[f32]) -> (f32, f32) {
    MinMax::new(xs).dispatch()
}

pub fn max_num(xs: &[f32]) -> f32 {
    MaxNum::new(xs).dispatch()
}

pub fn min_num(xs: &[f32]) -> f32 {
    MinNum::new(xs).dispatch()
}

/// With `min` and `max` keeping the second operand on a tie.
pub fn second_kept(xs: &[f32]) -> Extremes {
    let (least, largest) = MinMax::new(xs).dispatch_second();
    Extremes { least, largest, max_num: MaxNum::new(xs).dispatch_second(), min_num: MinNum::new(xs).dispatch_second() }
}

pub fn softmax(flush: bool, xs: &[f32]) -> Vec<f32> {
    let mut out = vec![0.0; xs.len()];
    softmax_to(flush, xs, &mut out);
    out
}

pub fn softmax_to(flush: bool, xs: &[f32], out: &mut [f32]) {
    Softmax::new(xs, unwritten(out)).flush_nans_to_zero(flush).dispatch();
}

pub fn softmax_in_place(flush: bool, xs: &[f32]) -> Vec<f32> {
    let mut out = xs.to_vec();
    softmax_on(flush, &mut out);
    out
}

pub fn softmax_on(flush: bool, data: &mut [f32]) {
    Softmax::new_mut(data).flush_nans_to_zero(flush).dispatch();
}

pub fn normalize(by: By, xs: &[f32]) -> Vec<f32> {
    let mut out = vec![0.0; xs.len()];
    normalize_to(by, xs, &mut out);
    out
}

pub fn normalize_to(by: By, xs: &[f32], out: &mut [f32]) {
    Normalize::new(xs, unwritten(out), options(by)).dispatch();
}

pub fn normalize_in_place(by: By, xs: &[f32]) -> Vec<f32> {
    let mut out = xs.to_vec();
    Normalize::new_mut(&mut out, options(by)).dispatch();
    out
}

fn options(by: By) -> NormalizeOptions {
    NormalizeOptions {
        pre_scale_bias: by.settings.pre_scale_bias,
        scale: by.settings.scale,
        element_scale: by.scales,
        bias: by.settings.bias,
        element_bias: by.biases,
    }
}

pub fn quantize(inv_scale: f32, zero_point: u8, xs: &[f32]) -> Vec<u8> {
    let mut out = vec![0; xs.len()];
    quantize_to(inv_scale, zero_point, xs, &mut out);
    out
}

pub fn quantize_to(inv_scale: f32, zero_point: u8, xs: &[f32], out: &mut [u8]) {
    Quantize::new(xs, unwritten(out), inv_scale, zero_point).dispatch();
}
