//! Least and largest: an element replaces the held one only if strictly beyond it.

use crate::answer::{Answer, DONE, ELEMENT_LIMIT, at_first, judged, when};
use crate::bits::{INF, neg};

pub fn least_from(held: f32, xs: &[f32]) -> f32 {
    xs.iter().fold(held, |m, &x| if x < m { x } else { m })
}

pub fn largest_from(held: f32, xs: &[f32]) -> f32 {
    xs.iter().fold(held, |m, &x| if x > m { x } else { m })
}

pub fn least(xs: &[f32]) -> f32 {
    least_from(INF, xs)
}

pub fn largest(xs: &[f32]) -> f32 {
    largest_from(neg(INF), xs)
}

fn answer(xs: &[f32]) -> Answer {
    judged(&[when(xs.len() > ELEMENT_LIMIT, 2), at_first(xs.len(), 4, |i| xs[i].is_nan())])
}

/// The answer with the least and the largest, +0 each where refused.
pub fn min_max(xs: &[f32]) -> (Answer, f32, f32) {
    match answer(xs) {
        DONE => (DONE, least(xs), largest(xs)),
        refused => (refused, 0.0, 0.0),
    }
}
