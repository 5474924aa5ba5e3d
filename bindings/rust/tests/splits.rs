//! Splits of many pseudo-random lists.

mod random;

use masoritun::{MAX_BANDS, PARTS, split};
use random::Random;

/// 1 to 64 levels, close together or far apart; now and then one is masked, or one is said twice.
fn levels(random: &mut Random) -> Vec<f32> {
    let n = 1 + random.below(MAX_BANDS);
    let spread = [1e-6, 0.1, 3.0, 20.0, 1e4][random.below(5)];
    let mut levels: Vec<f32> = (0..n).map(|_| random.unit() * spread).collect();
    for i in 1..n {
        match random.below(8) {
            0 => levels[i] = f32::NEG_INFINITY,
            1 => levels[i] = levels[i - 1],
            _ => {}
        }
    }
    levels
}

/// The exact shares, but for the rounding of f64.
fn shares(levels: &[f32]) -> Vec<f64> {
    let largest = levels.iter().fold(f64::NEG_INFINITY, |m, &x| m.max(x as f64));
    let weights: Vec<f64> = levels.iter().map(|&x| (x as f64 - largest).exp()).collect();
    let total: f64 = weights.iter().sum();
    weights.iter().map(|w| PARTS as f64 * w / total).collect()
}

/// The share of the first is a little below a half past 14185; in steps of 2^-24 it would be the half, and the lower band ahead.
#[test]
fn steps_are_fine() {
    let mut gains = [0; 2];
    assert_eq!(split(&[-0.27, 0.0], &mut gains), Ok(()));
    assert_eq!(gains, [14185, 18583]);
    let share = shares(&[-0.27, 0.0])[0];
    assert!(14185.4 < share && share < 14185.5, "{share}");
}

/// Every number of bands, of one level: the parts left over go to the first.
#[test]
fn equal_bands() {
    for n in 1..=MAX_BANDS {
        for level in [0.0, -6.25, 1e30] {
            let mut gains = vec![0; n];
            assert_eq!(split(&vec![level; n], &mut gains), Ok(()));
            let (each, left) = (PARTS as usize / n, PARTS as usize % n);
            let want: Vec<u16> = (0..n).map(|i| (each + (i < left) as usize) as u16).collect();
            assert_eq!(gains, want, "{n} bands at {level}");
        }
    }
}

#[test]
fn gains_add_up_and_lie_by_their_shares() {
    let mut random = Random(10);
    for _ in 0..20_000 {
        let levels = levels(&mut random);
        let mut gains = vec![0; levels.len()];
        assert_eq!(split(&levels, &mut gains), Ok(()), "{levels:?}");
        assert_eq!(gains.iter().map(|&g| g as u32).sum::<u32>(), 32768, "{levels:?}");
        for (i, (&gain, share)) in gains.iter().zip(shares(&levels)).enumerate() {
            // A gain is the whole part of its share or one more; f32 weights move a share by much less than a tenth.
            assert!((gain as f64 - share).abs() < 1.1, "band {i} of {levels:?}: {gain}, share {share}");
            assert!(levels[i] != f32::NEG_INFINITY || gain == 0, "masked band {i} of {levels:?}");
        }
        for i in 1..levels.len() {
            if levels[i] == levels[i - 1] {
                let more = gains[i - 1].wrapping_sub(gains[i]);
                assert!(more <= 1, "bands {i} and before of {levels:?}: {gains:?}");
            }
        }
    }
}
