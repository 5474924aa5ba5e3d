//! Which lists of levels have other gains in 2^30 steps than in 2^24 (request L6), by the reference: how many of all pairs and of random lists
//! of 1 to 16, and the smallest example.

use cases::Rng;
use reference::softmax::weights;
use reference::split::{STEP_BITS, gains_in, steps};
use reference::unary::reduced_range_exp;

const BEFORE: i32 = 24;
const BANDS: usize = 16;
const LISTS: usize = 1_000_000;
const SPREADS: [f32; 3] = [3.0, 12.0, 40.0];

/// How many lists were looked at, how many differ, and the most by which a gain does.
#[derive(Default)]
struct Count {
    lists: u64,
    differ: u64,
    most: u16,
}

impl Count {
    fn list(&mut self, weights: &[f32]) -> bool {
        let (old, new) = (gains_in(BEFORE, weights), gains_in(STEP_BITS, weights));
        let moved = old.iter().zip(&new).map(|(a, b)| a.abs_diff(*b)).max().unwrap_or(0);
        self.lists += 1;
        self.differ += (moved > 0) as u64;
        self.most = self.most.max(moved);
        moved > 0
    }
}

/// Every list of two: by what the lower lies under the other, d, which is an f32 or minus infinity, in both orders. The weights are 1 and
/// exp(d), each by the sum of the two.
fn pairs() -> Count {
    let mut all = Count::default();
    // where exp(d) is 0 or 1: the weights are 1 and 0, or a half each, and are looked at once
    let mut same = 0;
    for bits in 0x8000_0000..=0xff80_0000u32 {
        let e = reduced_range_exp(f32::from_bits(bits));
        if e == 0.0 || e == 1.0 {
            same += 2;
            continue;
        }
        let factor = 1.0 / (1.0 + e);
        all.list(&[factor, e * factor]);
        all.list(&[e * factor, factor]);
    }
    for ends in [[1.0, 0.0], [0.0, 1.0], [0.5, 0.5]] {
        assert!(!Count::default().list(&ends), "{ends:?} differs");
    }
    all.lists += same;
    all
}

fn random(n: usize, spread: f32) -> Count {
    let mut count = Count::default();
    let mut rng = Rng::new(&format!("steps {n} {spread}"));
    for _ in 0..LISTS {
        count.list(&weights(&rng.list(n, |r| r.unit() * spread)));
    }
    count
}

/// Two levels, 0 and d in either order, with the fewest decimals in d, then the least of them in size. One level alone gets all parts.
fn smallest() -> [f32; 2] {
    for power in 0..6 {
        let ten = 10i64.pow(power);
        for k in 1..=17 * ten {
            let d = -((k as f64 / ten as f64) as f32);
            for levels in [[0.0, d], [d, 0.0]] {
                if Count::default().list(&weights(&levels)) {
                    return levels;
                }
            }
        }
    }
    panic!("no pair up to five decimals differs")
}

fn main() {
    let levels = smallest();
    let w = weights(&levels);
    println!("smallest: {levels:?} ({:08x?}), weights {w:?}", levels.map(f32::to_bits));
    for bits in [BEFORE, STEP_BITS] {
        let a: Vec<u64> = w.iter().map(|&w| steps(bits, w)).collect();
        println!("  in 2^{bits} steps: {a:?}, gains {:?}", gains_in(bits, &w));
    }
    println!("bands: of {LISTS} lists with levels within 3, 12, 40 of 0 those that differ; the most that a gain moved");
    let mut all = Count::default();
    for n in 1..=BANDS {
        let counts = SPREADS.map(|spread| random(n, spread));
        let [a, b, c] = counts.each_ref().map(|c| c.differ);
        println!("{n}: {a} {b} {c}; {}", counts.iter().map(|c| c.most).max().unwrap());
        for c in counts {
            all.lists += c.lists;
            all.differ += c.differ;
        }
    }
    println!("together {} of {}", all.differ, all.lists);
    let two = pairs();
    println!("every pair: {} of {} differ, by {} at most", two.differ, two.lists, two.most);
}
