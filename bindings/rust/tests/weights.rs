//! Softmax's weights, added up: how far from 1 they are.

mod random;

use masoritun::{softmax, softmax_in_place};
use random::Random;

/// In 2^-24ths of the whole, by a sum in double; the same both ways.
fn apart(levels: &[f32]) -> f64 {
    let mut weights = vec![7.0; levels.len()];
    softmax(false, levels, &mut weights).unwrap();
    let mut data = levels.to_vec();
    softmax_in_place(true, &mut data).unwrap();
    assert_eq!(data, weights);
    (weights.iter().map(|&w| f64::from(w)).sum::<f64>() - 1.0) * 2f64.powi(24)
}

#[test]
fn close_to_one() {
    // Each addition in double is off by 2^-53 at most: 64 of them by 2^-23 of a 2^-24th.
    let double = 2f64.powi(-23);
    let mut random = Random(14);
    for _ in 0..20_000 {
        let n = 1 + random.below(64);
        let spread = [1.0, 12.0, 40.0][random.below(3)];
        let mut levels: Vec<f32> = (0..n).map(|_| random.unit() * spread).collect();
        for level in &mut levels[1..] {
            if random.below(8) == 0 {
                *level = f32::NEG_INFINITY;
            }
        }
        let apart = apart(&levels);
        assert!(apart.abs() <= (n + 2) as f64 + double, "{apart} of {levels:?}");
    }
}

/// A sum of 1 loses each -16.64, and counts each -16.6355 double: more than half of the 7 that five weights may be apart.
#[test]
fn half_is_too_little() {
    let five = |x| apart(&[0.0, x, x, x, x]);
    assert!((3.5..=7.0).contains(&five(-16.64)));
    assert!((3.5..=7.0).contains(&-five(-16.6355)));
}
