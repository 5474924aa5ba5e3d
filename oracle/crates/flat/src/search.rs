//! The search: from lists of several kinds, element by element, as long as the exact sum moves away from 1.

use crate::exact::Apart;
use cases::Rng;
use std::time::Instant;

unsafe extern "C" {
    fn mst_softmax(flush: bool, src: *const f32, n: usize, dst: *mut f32, m: usize) -> u64;
}

/// The farthest list to one side.
#[derive(Default)]
pub struct Worst {
    pub part: f64,
    pub list: Vec<f32>,
    pub tried: u64,
    pub within: bool,
}

/// A try more: its part to the side, 1.0 above and -1.0 below.
fn attempt(found: &mut Worst, side: f64, list: &[f32], weights: &mut [f32]) -> f64 {
    // SAFETY: two lent slices of their own.
    let word = unsafe { mst_softmax(false, list.as_ptr(), list.len(), weights.as_mut_ptr(), weights.len()) };
    assert!(word == 0, "refused: {list:?}");
    let apart = Apart::of(weights);
    let part = side * apart.part(list.len()) + 0.0; // no -0
    found.tried += 1;
    found.within &= apart.within(list.len());
    if found.list.is_empty() || part > found.part {
        (found.part, found.list) = (part, list.to_vec());
    }
    part
}

/// Levels within 1, 3, 12, 40 of 0; or 0 first and the others close to the logarithm of 2^-24, 2^-23 or 2^-25, where a sum of 1 rounds the most.
fn start(rng: &mut Rng, n: usize) -> Vec<f32> {
    let mut list = if rng.one_in(2) {
        let spread = rng.pick(&[1.0, 3.0, 12.0, 40.0]);
        rng.list(n, |r| r.unit() * spread)
    } else {
        let level = rng.pick(&[24.0, 23.0, 25.0]) * -std::f32::consts::LN_2;
        let spread = rng.pick(&[0.0, 1e-5, 0.01, 1.0]);
        rng.list(n, |r| level + r.unit() * spread)
    };
    list[0] = if rng.one_in(4) { list[0] } else { 0.0 };
    list
}

/// One element or all from a place on: a few patterns on, another's level, a new level, or masked.
fn change(rng: &mut Rng, list: &mut [f32]) {
    let i = rng.below(list.len());
    let end = if rng.one_in(4) { list.len() } else { i + 1 };
    let level = match rng.below(8) {
        0 => list[rng.below(list.len())],
        1 => rng.unit() * 20.0,
        2 => f32::NEG_INFINITY,
        _ => {
            let steps = 1 << rng.below(16);
            let bits = list[i].to_bits();
            f32::from_bits(if rng.one_in(2) { bits.saturating_add(steps) } else { bits.saturating_sub(steps) })
        }
    };
    list[i..end].fill(level);
}

/// What softmax takes: no NaN, no plus infinity, one element finite or more.
fn taken(list: &[f32]) -> bool {
    list.iter().all(|x| *x < f32::INFINITY) && list.iter().any(|x| x.is_finite())
}

fn climb(found: &mut Worst, side: f64, rng: &mut Rng, n: usize) {
    const PATIENCE: usize = 400;
    let (mut list, mut weights) = (start(rng, n), vec![0.0; n]);
    let mut best = attempt(found, side, &list, &mut weights);
    let mut idle = 0;
    while idle < PATIENCE {
        let mut next = list.clone();
        change(rng, &mut next);
        idle += 1;
        if !taken(&next) {
            continue;
        }
        let part = attempt(found, side, &next, &mut weights);
        if part >= best {
            if part > best {
                idle = 0;
            }
            (best, list) = (part, next);
        }
    }
}

/// The farthest lists of n found by `end`, above 1 and below it; one climb to each side at least.
pub fn worst(n: usize, end: Instant) -> [Worst; 2] {
    let mut rng = Rng::new(&format!("flat {n}"));
    let mut found = [Worst { within: true, ..Worst::default() }, Worst { within: true, ..Worst::default() }];
    loop {
        for (found, side) in found.iter_mut().zip([1.0, -1.0]) {
            climb(found, side, &mut rng, n);
        }
        if Instant::now() >= end {
            return found;
        }
    }
}
