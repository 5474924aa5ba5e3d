//! The five sums, from +0 and the first element on.

use crate::answer::{Answer, DONE, ELEMENT_LIMIT, at_first, judged, when};
use crate::bits::{abs, finite};
use crate::unary::exp;

#[derive(Clone, Copy, Debug)]
pub enum Kind {
    Sum,
    SumSquare,
    SumAbs,
    SumSquareSub(f32),
    SumExpSub(f32),
}

pub fn total(kind: Kind, xs: &[f32]) -> f32 {
    match kind {
        Kind::Sum => xs.iter().fold(0.0, |s, &x| s + x),
        Kind::SumSquare => square_sum_from(0.0, xs),
        Kind::SumAbs => xs.iter().fold(0.0, |s, &x| s + abs(x)),
        Kind::SumSquareSub(offset) => xs.iter().fold(0.0, |s, &x| (x - offset) * (x - offset) + s),
        Kind::SumExpSub(offset) => xs.iter().fold(0.0, |s, &x| s + exp(x - offset)),
    }
}

pub fn square_sum_from(held: f32, xs: &[f32]) -> f32 {
    xs.iter().fold(held, |s, &x| x * x + s)
}

/// The answer with the sum, +0 where refused.
pub fn sum(kind: Kind, xs: &[f32]) -> (Answer, f32) {
    let offset = match kind {
        Kind::SumSquareSub(offset) | Kind::SumExpSub(offset) => offset,
        _ => 0.0,
    };
    let answer =
        judged(&[when(xs.len() > ELEMENT_LIMIT, 2), when(!finite(offset), 3), at_first(xs.len(), 4, |i| !finite(xs[i]))]);
    (answer, if answer == DONE { total(kind, xs) } else { 0.0 })
}
