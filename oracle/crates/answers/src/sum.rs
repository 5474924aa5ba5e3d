//! The five sums: number, offset (+0 where there is none), n, the elements, the sum.

use crate::file::{File, bits};
use cases::Rng;
use reference::sum::{Kind, total};

const OFFSETS: [f32; 12] = [0.0, 1.0, -0.0, -5.5, 88.0, -88.0, 104.0, f32::MAX, 1e30, f32::MIN, f32::from_bits(1), -3e7];

pub fn file() -> File {
    let mut f = File::new("sum");
    let kinds: [fn(f32) -> Kind; 5] = [|_| Kind::Sum, |_| Kind::SumSquare, |_| Kind::SumAbs, Kind::SumSquareSub, Kind::SumExpSub];
    for (number, kind) in kinds.into_iter().enumerate() {
        let mut rng = Rng::new(["sum", "sum_square", "sum_abs", "sum_square_sub", "sum_exp_sub"][number]);
        for (i, xs) in ends().into_iter().chain(random(&mut rng)).enumerate() {
            let offset = if number < 3 { 0.0 } else { offset(&mut rng, i) };
            case(&mut f, number as u32, kind(offset), offset, &xs);
        }
    }
    f
}

fn case(f: &mut File, number: u32, kind: Kind, offset: f32, xs: &[f32]) {
    let y = text::sum(kind, xs);
    f.agree(&format!("{kind:?}"), xs, &[y], &[total(kind, xs)]);
    let mut words = vec![number, offset.to_bits(), xs.len() as u32];
    words.extend(bits(xs));
    words.push(y.to_bits());
    f.case(&words);
}

fn offset(rng: &mut Rng, i: usize) -> f32 {
    if i % 3 == 2 { rng.mixed() } else { OFFSETS[i / 3 * 2 % 12 + i % 3] }
}

/// Nothing, zeros, subnormals, cancellation, overflow, squares that underflow or overflow.
fn ends() -> Vec<Vec<f32>> {
    let (tiny, max, half) = (f32::from_bits(1), f32::MAX, f32::from_bits(0x7300_0000));
    vec![
        vec![],
        vec![-0.0],
        vec![-0.0, -0.0, -0.0],
        vec![0.0, -0.0],
        vec![1.0],
        vec![tiny, tiny, tiny, -tiny],
        vec![f32::MIN_POSITIVE, -f32::from_bits(0x007f_ffff), tiny],
        vec![1e-23, -1e-23, 3e-20, 1e-19],
        vec![1e8, 1.0, -1e8],
        vec![1e8, -1e8, 1.0],
        vec![16777216.0, 1.0, 1.0, 1.0, 1.0],
        vec![1.0, 5.9604645e-8, 5.9604645e-8, 5.9604645e-8, 1.1920929e-7],
        vec![max],
        vec![max, max, -max],
        vec![-max, -max],
        vec![max, half],
        vec![max, f32::from_bits(half.to_bits() - 1)],
        vec![max, -max, 2.5],
        vec![1.8446743e19, 1e10],
        vec![1.8446744e19, 1e10, -3.0],
        vec![87.0, 88.0, 88.5, 88.72283],
        vec![-87.0, -100.0, -103.97, -104.0, -0.0],
    ]
}

fn random(rng: &mut Rng) -> Vec<Vec<f32>> {
    let mut lists = vec![];
    for n in (2..=20).chain([97, 101]) {
        let list = match n % 4 {
            0 => rng.list(n, Rng::mixed),
            1 => rng.list(n, |r| r.unit() * 10.0),
            2 => rng.list(n, |r| r.unit() * 88.0),
            _ => rng.list(n, |r| f32::from_bits(r.word() & 0x80ff_ffff)),
        };
        lists.push(list);
    }
    lists.push(rng.list(12, Rng::finite));
    lists
}
