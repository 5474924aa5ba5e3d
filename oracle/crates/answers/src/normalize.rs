//! Normalize: pre_scale_bias, scale, bias, has_scale, has_bias, n; n scales and n biases where they are there; the data; the outputs.

use crate::file::{File, bits};
use cases::Rng;
use reference::normalize::{By, Settings, element};

/// Data with settings and per-element slices; those not in use are empty.
struct Case {
    settings: Settings,
    scales: Option<Vec<f32>>,
    biases: Option<Vec<f32>>,
    data: Vec<f32>,
}

impl Case {
    fn by(&self) -> By<'_> {
        By { settings: self.settings, scales: self.scales.as_deref(), biases: self.biases.as_deref() }
    }
    fn expected(&self) -> Vec<f32> {
        self.data.iter().enumerate().map(|(i, &x)| element(self.by(), i, x)).collect()
    }
}

pub fn file() -> File {
    let mut f = File::new("normalize");
    for c in ends().into_iter().chain(random()) {
        case(&mut f, &c);
    }
    f
}

fn case(f: &mut File, c: &Case) {
    let out = text::normalize(c.by(), &c.data);
    f.agree("normalize", &c.data, &out, &c.expected());
    f.agree("normalize in place", &c.data, &text::normalize_in_place(c.by(), &c.data), &c.expected());
    let Settings { pre_scale_bias, scale, bias } = c.settings;
    let mut words = bits(&[pre_scale_bias, scale, bias]);
    words.extend([c.scales.is_some() as u32, c.biases.is_some() as u32, c.data.len() as u32]);
    for part in [c.scales.as_deref(), c.biases.as_deref(), Some(&c.data), Some(&out)].into_iter().flatten() {
        words.extend(bits(part));
    }
    f.case(&words);
}

/// The shapes: which slices are there.
const SHAPES: [(bool, bool); 4] = [(false, false), (true, false), (false, true), (true, true)];

/// Empty data; both zeros of bias against products of both zeros; overflow; in every shape.
fn ends() -> Vec<Case> {
    let mut cases = vec![];
    let zeros = [0.0, -0.0, 1.0, -1.0, f32::from_bits(1), f32::from_bits(0x8000_0001)];
    let large = [f32::MAX, f32::MIN, 1e38, -1e38, 2.0, 0.0];
    for (has_scale, has_bias) in SHAPES {
        for bias in [0.0, -0.0, 0.5] {
            cases.push(shaped((0.0, 1.0, bias), has_scale, has_bias, &[], &[], &[]));
            cases.push(shaped((0.0, 1.0, bias), has_scale, has_bias, &[1.0, 1.0, -1.0, 0.0, 0.5, 0.5], &[-0.0; 6], &zeros));
            cases.push(shaped((0.0, -0.0, bias), has_scale, has_bias, &[1.0; 6], &[0.0, -0.0, 0.0, -0.0, 0.0, -0.0], &zeros));
            cases.push(shaped((1.0, 3.0, bias), has_scale, has_bias, &[2.0; 6], &[-1.0; 6], &large));
        }
        cases.push(shaped((f32::MAX, 1.0, 1.0), has_scale, has_bias, &[1.0; 6], &[1.0; 6], &large));
    }
    cases
}

fn shaped((p, s, b): (f32, f32, f32), has_scale: bool, has_bias: bool, scales: &[f32], biases: &[f32], data: &[f32]) -> Case {
    Case {
        settings: Settings { pre_scale_bias: p, scale: s, bias: b },
        scales: has_scale.then(|| scales.to_vec()),
        biases: has_bias.then(|| biases.to_vec()),
        data: data.to_vec(),
    }
}

/// 17 cases of every shape, none with a NaN (those are refused with 6).
fn random() -> Vec<Case> {
    let mut rng = Rng::new("normalize");
    let mut cases = vec![];
    for (has_scale, has_bias) in SHAPES {
        let mut made = 0;
        while made < 17 {
            let n = 1 + (made * 5) % 12;
            let wild = made % 3 == 2;
            let draw = |r: &mut Rng| if wild { r.mixed() } else { r.unit() * 4.0 };
            let bias = if made % 4 == 3 { rng.pick(&[0.0, -0.0]) } else { draw(&mut rng) };
            let settings = (draw(&mut rng), draw(&mut rng), bias);
            let lists = [0; 3].map(|_| rng.list(n, draw));
            let c = shaped(settings, has_scale, has_bias, &lists[0], &lists[1], &lists[2]);
            if !c.expected().iter().any(|y| y.is_nan()) {
                cases.push(c);
                made += 1;
            }
        }
    }
    cases
}
