//! Each operator beside its formula in f64, so that no name stands for another operator.

use masoritun::*;
use std::f64::consts::{FRAC_1_SQRT_2, FRAC_2_SQRT_PI};

type Operator = fn(&[f32], &mut [f32]) -> Result<(), Refusal>;
type Formula = fn(f64) -> f64;

/// The error function by its series, good to 1e-9 up to 4 in size.
fn erf_of(x: f64) -> f64 {
    let (mut term, mut sum) = (x, x);
    for n in 1..100 {
        term *= -x * x / n as f64;
        sum += term / (2 * n + 1) as f64;
    }
    FRAC_2_SQRT_PI * sum
}

/// The constant is the root of 2 / pi.
fn approx_gelu_of(x: f64) -> f64 {
    0.5 * x * (1.0 + (0.7978845608028654 * (x + 0.044715 * x.powi(3))).tanh())
}

const CASES: [(&str, Operator, Formula); 12] = [
    ("exp", exp, f64::exp),
    ("reduced_range_exp", reduced_range_exp, f64::exp),
    ("sigmoid", sigmoid, |x| 1.0 / (1.0 + (-x).exp())),
    ("silu", silu, |x| x / (1.0 + (-x).exp())),
    ("swish", |src, dst| swish(1.75, src, dst), |x| x / (1.0 + (-1.75 * x).exp())),
    ("elu", |src, dst| elu(0.75, src, dst), |x| if x >= 0.0 { x } else { 0.75 * x.exp_m1() }),
    ("tanh", tanh, f64::tanh),
    ("erf", erf, erf_of),
    ("gelu", gelu, |x| 0.5 * x * (1.0 + erf_of(x * FRAC_1_SQRT_2))),
    ("approx_gelu", approx_gelu, approx_gelu_of),
    ("sin", sin, f64::sin),
    ("cos", cos, f64::cos),
];

#[test]
fn lie_by_their_formulas() {
    let grid: Vec<f32> = (-16..=16).map(|i| i as f32 / 4.0).collect();
    for (name, operator, formula) in CASES {
        let src = if name == "reduced_range_exp" { &grid[..17] } else { &grid[..] };
        let mut dst = vec![7.0; src.len()];
        assert_eq!(operator(src, &mut dst), Ok(()));
        for (&x, &y) in src.iter().zip(&dst) {
            let want = formula(x as f64);
            assert!((y as f64 - want).abs() <= 2e-6 * want.abs().max(1.0), "{name} of {x}: {y}, formula {want}");
        }
    }
}
