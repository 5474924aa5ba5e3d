//! Extremes: n, the elements; least and largest by document 01's rule; then MinMax's two, MaxNum and MinNum of the text
//! with `min` and `max` keeping the first operand on a tie; then the same with the second.

use crate::file::{File, bits};
use cases::Rng;
use reference::extremes::{largest, least};
use text::{Extremes, first_kept, second_kept};

pub fn file() -> File {
    let mut f = File::new("min_max");
    for xs in lists() {
        case(&mut f, &xs);
    }
    f
}

fn case(f: &mut File, xs: &[f32]) {
    let rule = [least(xs), largest(xs)];
    let (first, second) = (first_kept(xs), second_kept(xs));
    // The text holds the value second in MinMax, first in MaxNum and MinNum: there the rule is met to the bit.
    f.agree("MinMax, second kept", xs, &[second.least, second.largest], &rule);
    f.agree("MinNum and MaxNum, first kept", xs, &[first.min_num, first.max_num], &rule);
    for e in [first, second] {
        let as_numbers = [e.least, e.min_num] == [rule[0]; 2] && [e.largest, e.max_num] == [rule[1]; 2];
        if !as_numbers {
            f.fault("extremes as numbers", xs, &bits(&words(e)), &bits(&rule));
        }
    }
    let mut out = vec![xs.len() as u32];
    for part in [xs, &rule, &words(first), &words(second)] {
        out.extend(bits(part));
    }
    f.case(&out);
}

fn words(e: Extremes) -> [f32; 4] {
    [e.least, e.largest, e.max_num, e.min_num]
}

fn lists() -> Vec<Vec<f32>> {
    let (inf, tiny) = (f32::INFINITY, f32::from_bits(1));
    let mut lists = vec![vec![]];
    // every list of one to three zeros
    for n in 1..=3 {
        for signs in 0..1u32 << n {
            lists.push((0..n).map(|i| f32::from_bits(signs >> i << 31)).collect());
        }
    }
    lists.extend([
        vec![inf],
        vec![-inf],
        vec![inf, -inf],
        vec![-inf, inf, 0.0, -0.0],
        vec![inf, inf],
        vec![-inf, -inf],
        vec![1.5],
        vec![f32::MAX],
        vec![f32::MIN, -inf],
        vec![f32::MAX, inf],
        vec![tiny, 0.0],
        vec![-0.0, tiny],
        vec![-tiny, -0.0, 0.0],
        vec![0.0, -0.0, -1.0],
        vec![-0.0, 0.0, 1.0],
        vec![1.0, 0.0, -0.0],
        vec![-1.0, -0.0, 0.0, -0.0],
        vec![2.0, 2.0, 2.0],
        vec![3.0, 1.0, 2.0, 1.0, 3.0],
        vec![-3.0, -1.0, -2.0],
    ]);
    let mut rng = Rng::new("min_max");
    for n in 2..=16 {
        lists.push(rng.list(n, |r| r.pick(&[0.0, -0.0, 0.0, -0.0, 0.0, -0.0, 1.0, -1.0, inf, -inf])));
        lists.push(rng.list(n, |r| if r.one_in(10) { r.pick(&[inf, -inf]) } else { r.mixed() }));
    }
    lists
}
