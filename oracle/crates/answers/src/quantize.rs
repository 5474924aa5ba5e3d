//! Quantize: inv_scale, zero_point, n, the data, the codes.
//! Products up to 2^30 in size come from the text; the file of those beyond it comes from the reference, which saturates.

use crate::file::{File, bits};
use cases::Rng;
use reference::quantize::code;

const FAR: f32 = 1073741824.0;
const ZERO_POINTS: [u8; 6] = [0, 128, 255, 1, 127, 200];

pub fn file() -> File {
    let mut f = File::new("quantize");
    for (inv_scale, zero_point, xs) in ends().into_iter().chain(random()) {
        assert!(xs.iter().all(|x| (x * inv_scale).abs() <= FAR));
        let out: Vec<u32> = text::quantize(inv_scale, zero_point, &xs).iter().map(|&c| c as u32).collect();
        let reference = codes(inv_scale, zero_point, &xs);
        if out != reference {
            f.fault(&format!("quantize by {inv_scale:e}, {zero_point}"), &xs, &out, &reference);
        }
        case(&mut f, inv_scale, zero_point, &xs, &out);
    }
    f
}

/// Elements whose products are all beyond 2^30, infinite ones among them.
pub fn far_file() -> File {
    let mut f = File::new("quantize_far");
    let just = [0x4e80_0001, 0x4eff_ffff, 0x4f00_0000, 0x4f00_0001, 0x5000_0000, 0x7f7f_ffff].map(f32::from_bits);
    let both: Vec<f32> = just.into_iter().flat_map(|x| [x, -x]).collect();
    for (i, inv_scale) in [1.0, -1.0, 2.0, 4096.0, f32::MAX, f32::MIN, 1.5, -1e20].into_iter().enumerate() {
        for zero_point in [ZERO_POINTS[i % 6], ZERO_POINTS[(i + 1) % 6]] {
            assert!(both.iter().all(|x| (x * inv_scale).abs() > FAR));
            case(&mut f, inv_scale, zero_point, &both, &codes(inv_scale, zero_point, &both));
        }
    }
    f
}

fn codes(inv_scale: f32, zero_point: u8, xs: &[f32]) -> Vec<u32> {
    xs.iter().map(|&x| code(inv_scale, zero_point, x) as u32).collect()
}

fn case(f: &mut File, inv_scale: f32, zero_point: u8, xs: &[f32], out: &[u32]) {
    let mut words = vec![inv_scale.to_bits(), zero_point as u32, xs.len() as u32];
    words.extend(bits(xs));
    words.extend(out);
    f.case(&words);
}

/// Nothing; document 01's cases; ties of both signs at every zero point; the ends of 0..255; zeros, subnormals, 2^30.
fn ends() -> Vec<(f32, u8, Vec<f32>)> {
    let tiny = f32::from_bits(1);
    let mut cases = vec![(1.0, 0, vec![]), (1.0, 0, vec![0.5, 1.5, 2.5, -1.0, 300.0]), (1.0, 128, vec![-0.5])];
    for zero_point in ZERO_POINTS {
        let z = zero_point as f32;
        cases.push((1.0, zero_point, vec![0.5, -0.5, 1.5, -1.5, 2.5, -2.5, 3.5, -3.5, 126.5, -126.5, 127.5, -127.5]));
        cases.push((1.0, zero_point, vec![-z, 0.5 - z, -0.5 - z, 254.5 - z, 255.0 - z, 255.5 - z, 256.0 - z]));
        cases.push((1.0, zero_point, vec![FAR, -FAR, 8388607.5, -8388607.5, 16777216.0, 4194304.5, -4194304.5, 255.49998]));
        cases.push((0.0, zero_point, vec![0.0, -0.0, f32::MAX, f32::MIN]));
        cases.push((2.0, zero_point, vec![0.25, -0.25, 0.75, -0.75, 63.75, 64.25]));
    }
    cases.push((-1.0, 100, vec![0.5, -0.5, 1.5, 100.5, 99.5, -155.5, -156.5]));
    cases.push((f32::MAX, 7, vec![0.0, -0.0, tiny, -tiny, 1e-38, -1e-38]));
    cases.push((tiny, 7, vec![f32::MAX, f32::MIN, 0.0, tiny]));
    cases.push((1.0, 9, vec![0.49999997, 0.50000006, -0.49999997, -0.50000006, tiny]));
    cases
}

fn random() -> Vec<(f32, u8, Vec<f32>)> {
    let mut rng = Rng::new("quantize");
    let mut cases = vec![];
    for n in 0..64 {
        let inv_scale = match n % 4 {
            0 => 1.0,
            1 => rng.unit() * 100.0,
            2 => rng.mixed(),
            _ => rng.finite(),
        };
        let zero_point = rng.word() as u8;
        let xs = rng.list(1 + n % 12, |r| {
            let x = match r.below(4) {
                0 => (r.below(1024) as f32 - 512.0) / 2.0,
                1 => (r.below(1024) as f32 - 512.0) / 2.0 / inv_scale,
                2 => r.unit() * 200.0 / inv_scale,
                _ => r.mixed(),
            };
            if (x * inv_scale).abs() <= FAR && x.is_finite() { x } else { r.unit() * 255.0 / inv_scale }
        });
        if xs.iter().all(|x| x.is_finite() && (x * inv_scale).abs() <= FAR) {
            cases.push((inv_scale, zero_point, xs));
        }
    }
    cases
}
