//! Softmax: flush, n, the elements, the n weights.

use crate::file::{File, bits};
use cases::Rng;
use reference::softmax::{all_masked, in_domain, weights};

const MASK: f32 = f32::NEG_INFINITY;

pub fn file() -> File {
    let mut f = File::new("softmax");
    for (i, xs) in lists().into_iter().enumerate() {
        // All masked is refused with flush off.
        let flush = all_masked(&xs) || i % 4 == 1;
        case(&mut f, flush, &xs);
    }
    f
}

fn case(f: &mut File, flush: bool, xs: &[f32]) {
    assert!(xs.iter().all(|&x| in_domain(x)));
    let out = text::softmax(flush, xs);
    f.agree("softmax", xs, &out, &weights(xs));
    f.agree("softmax in place", xs, &text::softmax_in_place(flush, xs), &weights(xs));
    let mut words = vec![flush as u32, xs.len() as u32];
    words.extend(bits(xs));
    words.extend(bits(&out));
    f.case(&words);
}

fn lists() -> Vec<Vec<f32>> {
    let mut lists = ends();
    for (i, n) in (1..=24).step_by(2).enumerate() {
        lists.push(vec![[0.0, 1.0, -5.5, f32::MAX, f32::MIN, -0.0][i % 6]; n]);
    }
    let mut rng = Rng::new("softmax");
    for n in 1..=24 {
        lists.push(rng.list(n, |r| r.unit() * 10.0));
        lists.push(rng.list(n, |r| if r.one_in(3) { MASK } else { r.unit() * 60.0 }));
    }
    for n in 2..=20 {
        let list = match n % 4 {
            0 => rng.list(n, Rng::mixed),
            // the first at 0, the others about the cutoff
            1 => std::iter::once(0.0).chain(rng.list(n, |r| -87.67 + r.unit() * 0.02)).collect(),
            2 => rng.list(n, |r| if r.one_in(8) { MASK } else { r.finite() }),
            _ => rng.list(n, |r| r.pick(&[0.0, -0.0, MASK, 1e-45, -1e-45])),
        };
        lists.push(list);
    }
    lists
}

fn ends() -> Vec<Vec<f32>> {
    let cutoff = 0xc2af_58a3;
    let near = [cutoff - 1, cutoff, cutoff + 1].map(f32::from_bits);
    let tiny = f32::from_bits(1);
    let mut lists = vec![
        vec![],
        vec![0.0],
        vec![-0.0],
        vec![f32::MAX],
        vec![f32::MIN],
        vec![MASK],
        vec![MASK; 2],
        vec![MASK; 3],
        vec![MASK; 8],
        vec![0.0, 0.0],
        vec![0.0, -0.0],
        vec![-0.0, 0.0],
        vec![0.0, MASK],
        vec![MASK, 0.0, MASK],
        vec![0.0, MASK, 0.0],
        vec![f32::MIN, MASK],
        vec![MASK, f32::MIN, f32::MIN],
        vec![f32::MAX, f32::MIN],
        vec![f32::MIN, f32::MAX, 0.0, MASK],
        vec![f32::MAX, f32::MAX, f32::MIN],
        vec![0.0, -100.0],
        vec![0.0, -87.5],
        vec![0.0, near[0], near[1], near[2]],
        vec![near[0], 0.0],
        vec![near[1], 0.0],
        vec![near[2], 0.0],
        vec![100.0, 100.0 - 87.68, 12.33, 12.32],
        vec![1e8, 1e8 - 8.0, 1e8 - 80.0, 1e8 - 88.0],
        vec![tiny, -tiny, 0.0],
        vec![1.0, 2.0, 3.0, 4.0],
        vec![-1.0, -2.0, -3.0, -4.0],
    ];
    // exponentials just below 2^-24, each lost to the tie
    lists.push(std::iter::once(0.0).chain([-16.635532; 23]).collect());
    lists.push([-16.635532; 23].into_iter().chain([0.0]).collect());
    lists
}
