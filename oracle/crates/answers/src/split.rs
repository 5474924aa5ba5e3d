//! Split: n, the levels, the gains, which the reference works out from the weights of the text.

use crate::file::{File, bits};
use cases::Rng;
use reference::softmax::weights;
use reference::split::{PARTS, gains};

const MASK: f32 = f32::NEG_INFINITY;
/// The numbers of bands, those above 16 as many as a file has room for.
const BANDS: [usize; 21] = [1, 2, 3, 4, 5, 6, 7, 8, 9, 10, 11, 12, 13, 14, 15, 16, 17, 32, 47, 63, 64];

pub fn file() -> File {
    let mut f = File::new("split");
    for xs in worked().into_iter().chain(built()).chain(random()) {
        let text = text::softmax(false, &xs);
        f.agree("softmax", &xs, &text, &weights(&xs));
        let gains: Vec<u32> = gains(&text).iter().map(|&g| g as u32).collect();
        assert_eq!(gains.iter().sum::<u32>(), PARTS as u32);
        let mut words = vec![xs.len() as u32];
        words.extend(bits(&xs));
        words.extend(gains);
        f.case(&words);
    }
    f
}

/// Document 01, "Sums by hand".
fn worked() -> Vec<Vec<f32>> {
    vec![vec![0.0], vec![0.0; 2], vec![0.0; 3], vec![0.0; 5], vec![0.0, -100.0], vec![0.0, MASK, 0.0]]
}

/// Equal bands, masked bands, huge spreads, weights that are half a part, equal remainders.
fn built() -> Vec<Vec<f32>> {
    let mut lists: Vec<Vec<f32>> = vec![];
    for n in BANDS {
        lists.push(vec![[0.0, -0.0, 1.0, -5.5, f32::MAX, f32::MIN][n % 6]; n]);
        lists.push((0..n).map(|i| if i == n / 2 { 0.0 } else { MASK }).collect());
        lists.push((0..n).map(|i| if i % 2 == 0 { -3.25 } else { MASK }).collect());
        lists.push((0..n).map(|i| -(i as f32) * std::f32::consts::LN_2).collect());
    }
    lists.extend([
        vec![f32::MAX, f32::MIN],
        vec![f32::MIN, f32::MAX, MASK],
        vec![f32::MIN, MASK, f32::MIN],
        vec![0.0, -10.397208],
        vec![0.0, -11.090355],
        vec![0.0, -17.32868, -17.32868],
        vec![0.0, -87.67312],
        vec![0.0, -18.0],
        vec![1.0, 2.0, 2.0, 1.0, 1.0, 2.0],
        vec![2.0, 1.0, 1.0, 2.0, 2.0, 1.0, 0.0, 0.0, 0.0],
    ]);
    lists
}

fn random() -> Vec<Vec<f32>> {
    let mut rng = Rng::new("split");
    let mut lists = vec![];
    for i in 0..4 * BANDS.len() + 8 {
        let n = BANDS[i % BANDS.len()];
        let mut list = match i / BANDS.len() {
            0 => rng.list(n, |r| r.unit() * 3.0),
            1 => rng.list(n, |r| r.unit() * 20.0),
            2 => rng.list(n, |r| if r.one_in(3) { MASK } else { r.unit() * 6.0 }),
            3 => rng.list(n, |r| r.pick(&[0.0, -0.0, 1.0, 1.0, -1.0, -2.5])),
            _ => rng.list(n, Rng::mixed),
        };
        if list.iter().all(|&x| x == MASK) {
            list[0] = 0.0;
        }
        lists.push(list);
    }
    lists
}
