//! Meters fed whole and in pieces.

mod random;

use masoritun::{Meter, min_max, sum_square};
use random::Random;

#[test]
fn pieces_give_the_meter_of_the_whole() {
    let mut random = Random(3);
    for _ in 0..500 {
        let samples: Vec<f32> = (0..1 + random.below(300)).map(|_| 1.5 * random.unit()).collect();
        let mut whole = Meter::new();
        assert_eq!(whole.feed(&samples), Ok(()));
        let mut pieces = Meter::default();
        let mut rest = &samples[..];
        while !rest.is_empty() {
            let (piece, after) = rest.split_at(random.below(rest.len() + 1));
            assert_eq!(pieces.feed(piece), Ok(()));
            rest = after;
        }
        assert_eq!(pieces, whole);
        assert_eq!(whole.count as usize, samples.len());
        assert_eq!(whole.overs as usize, samples.iter().filter(|x| !(-1.0 < **x && **x < 1.0)).count());
        assert_eq!(sum_square(&samples), Ok(whole.sum_squares));
        assert_eq!(min_max(&samples), Ok((whole.least, whole.largest)));
        // Beside the library: the extremes, and the sum of squares to 1 in 10,000.
        assert_eq!(whole.least, samples.iter().copied().fold(f32::INFINITY, f32::min));
        assert_eq!(whole.largest, samples.iter().copied().fold(f32::NEG_INFINITY, f32::max));
        let squares: f64 = samples.iter().map(|&x| x as f64 * x as f64).sum();
        assert!((whole.sum_squares as f64 - squares).abs() <= squares * 1e-4, "{squares}");
    }
}

#[test]
fn overs_begin_at_full_scale() {
    // the f32 on either side of 1.0
    let [below, above] = [0x3f7f_ffff, 0x3f80_0001].map(f32::from_bits);
    let small = [0.0, -0.0, f32::from_bits(1), -f32::from_bits(1), f32::MIN_POSITIVE, below, -below];
    let large = [1.0, -1.0, above, -above, f32::MAX, f32::MIN];
    let mut meter = Meter::new();
    assert_eq!(meter.feed(&small), Ok(()));
    assert_eq!((meter.count, meter.overs), (7, 0));
    for (fed, x) in (1..).zip(large) {
        assert_eq!(meter.feed(&[x, below]), Ok(()));
        assert_eq!((meter.count, meter.overs), (7 + 2 * fed, fed));
    }
}
