//! The kernels: ours, the Rust, and what is asked of their ratio.

use crate::calls::calls;
use crate::job::Job;
use crate::library::*;
use reference::normalize::{By, Settings};
use reference::sum::Kind;
use reference::unary::Op;

pub type Call = fn(&Job);

pub struct Kernel {
    pub name: &'static str,
    pub ours: Call,
    /// The Rust text; for split and table the reference.
    pub rust: Call,
    /// Inputs are drawn from here.
    pub range: (f32, f32),
    pub bias: f32,
    /// Elements where the kernel has one size only.
    pub only: Option<usize>,
    /// Ours by the Rust, at most; asked at n = 1024 or the only size.
    pub limit: Option<f64>,
    /// Whether ours by the branch-free loop is a goal.
    pub goal: bool,
}

pub const USUAL: (f32, f32) = (-6.0, 6.0);
const LIMIT: Option<f64> = Some(1.0);
/// Of ordered sums and extremes, where one addition or comparison waits for the one before.
const ORDERED_LIMIT: Option<f64> = Some(1.1);
/// Of normalize without a per-element bias: the text writes in lanes and nothing else; demand 1 asks for a look before the first write.
const LOOKED_LIMIT: Option<f64> = Some(2.7);
/// Ours by the branch-free loop, for the kernels below.
pub const GOAL: f64 = 1.6;
const GOALS: [&str; 10] = ["exp", "sigmoid", "silu", "tanh", "erf", "gelu", "sin", "cos", "softmax", "quantize"];

pub fn kernel(name: &'static str, range: (f32, f32), limit: Option<f64>, ours: Call, rust: Call) -> Kernel {
    Kernel { name, ours, rust, range, bias: 0.5, only: None, limit, goal: GOALS.contains(&name) }
}

macro_rules! operator {
    ($name:literal, $ours:ident, $op:expr, $range:expr) => {
        kernel(
            $name,
            $range,
            LIMIT,
            // SAFETY: here and below, the job's buffers are as long as it says and do not overlap.
            |j| _ = unsafe { $ours(j.src, j.n, j.dst.cast(), j.n) },
            |j| text::map($op, j.src(), j.out(j.n)),
        )
    };
    ($name:literal, $ours:ident alpha, $op:expr, $range:expr) => {
        kernel(
            $name,
            $range,
            LIMIT,
            |j| _ = unsafe { $ours(j.alpha, j.src, j.n, j.dst.cast(), j.n) },
            |j| text::map($op(j.alpha), j.src(), j.out(j.n)),
        )
    };
}

fn operators() -> Vec<Kernel> {
    let turns = (-100.0, 100.0);
    vec![
        operator!("exp", mst_exp, Op::Exp, USUAL),
        operator!("reduced_range_exp", mst_reduced_range_exp, Op::ReducedRangeExp, (-20.0, 0.0)),
        operator!("sigmoid", mst_sigmoid, Op::Sigmoid, USUAL),
        operator!("silu", mst_silu, Op::Silu, USUAL),
        operator!("swish", mst_swish alpha, Op::Swish, USUAL),
        operator!("elu", mst_elu alpha, Op::Elu, USUAL),
        operator!("tanh", mst_tanh, Op::Tanh, USUAL),
        operator!("erf", mst_erf, Op::Erf, USUAL),
        operator!("gelu", mst_gelu, Op::Gelu, USUAL),
        operator!("approx_gelu", mst_approx_gelu, Op::ApproxGelu, USUAL),
        operator!("sin", mst_sin, Op::Sin, turns),
        operator!("cos", mst_cos, Op::Cos, turns),
    ]
}

macro_rules! fold {
    ($name:literal, $ours:ident, $text:expr) => {
        kernel($name, USUAL, ORDERED_LIMIT, |j| _ = unsafe { $ours(j.src, j.n, j.dst.cast()) }, |j| j.out(1)[0] = $text(j.src()))
    };
    ($name:literal, $ours:ident offset, $kind:expr) => {
        kernel(
            $name,
            USUAL,
            ORDERED_LIMIT,
            |j| _ = unsafe { $ours(j.offset, j.src, j.n, j.dst.cast()) },
            |j| j.out(1)[0] = text::sum($kind(j.offset), j.src()),
        )
    };
}

fn folds() -> Vec<Kernel> {
    vec![
        fold!("sum", mst_sum, |xs| text::sum(Kind::Sum, xs)),
        fold!("sum_square", mst_sum_square, |xs| text::sum(Kind::SumSquare, xs)),
        fold!("sum_abs", mst_sum_abs, |xs| text::sum(Kind::SumAbs, xs)),
        fold!("sum_square_sub", mst_sum_square_sub offset, Kind::SumSquareSub),
        fold!("sum_exp_sub", mst_sum_exp_sub offset, Kind::SumExpSub),
        kernel("min_max", USUAL, ORDERED_LIMIT, our_min_max, |j| {
            let (least, largest) = text::min_max(j.src());
            j.out(2).copy_from_slice(&[least, largest]);
        }),
        fold!("max_num", mst_max_num, text::max_num),
        fold!("min_num", mst_min_num, text::min_num),
        // The text has no meter: its SumSquare and MinMax of the same samples, and a count of the overs.
        kernel("meter_feed", USUAL, ORDERED_LIMIT, our_feeding, |j| {
            let sum = text::sum(Kind::SumSquare, j.src());
            let (least, largest) = text::min_max(j.src());
            let overs = j.src().iter().filter(|x| x.abs() >= 1.0).count();
            let [count, overs] = [j.n, overs].map(|n| f32::from_bits(n as u32));
            j.out(5).copy_from_slice(&[count, overs, sum, least, largest]);
        }),
    ]
}

fn our_min_max(j: &Job) {
    let [least, largest] = j.out::<f32>(2) else { unreachable!() };
    _ = unsafe { mst_min_max(j.src, j.n, least, largest) };
}

fn our_feeding(j: &Job) {
    let (mut count, mut overs) = (0, 0);
    let [_, _, sum, least, largest] = j.out::<f32>(5) else { unreachable!() };
    (*sum, *least, *largest) = (0.0, f32::INFINITY, f32::NEG_INFINITY);
    _ = unsafe { mst_meter_feed(&mut count, &mut overs, sum, least, largest, j.src, j.n) };
    j.out(2).copy_from_slice(&[count, overs]);
}

fn our_normalize(j: &Job, has_scale: bool, has_bias: bool) {
    let (ns, nb) = (j.n * has_scale as usize, j.n * has_bias as usize);
    _ = unsafe {
        mst_normalize(
            j.pre_scale_bias,
            j.scale,
            j.bias,
            has_scale,
            j.scales,
            ns,
            has_bias,
            j.biases,
            nb,
            j.src,
            j.n,
            j.dst.cast(),
            j.n,
        )
    };
}

fn text_normalize(j: &Job, has_scale: bool, has_bias: bool) {
    let settings = Settings { pre_scale_bias: j.pre_scale_bias, scale: j.scale, bias: j.bias };
    let by = By { settings, scales: has_scale.then(|| j.scales()), biases: has_bias.then(|| j.biases()) };
    text::normalize_to(by, j.src(), j.out(j.n));
}

macro_rules! normalize {
    ($name:literal, $limit:expr, $scale:literal, $bias:literal) => {
        kernel($name, USUAL, $limit, |j| our_normalize(j, $scale, $bias), |j| text_normalize(j, $scale, $bias))
    };
}

fn others() -> Vec<Kernel> {
    vec![
        kernel(
            "softmax",
            (-10.0, 10.0),
            LIMIT,
            |j| _ = unsafe { mst_softmax(false, j.src, j.n, j.dst.cast(), j.n) },
            |j| text::softmax_to(false, j.src(), j.out(j.n)),
        ),
        kernel(
            "softmax_in_place",
            (-10.0, 10.0),
            LIMIT,
            |j| {
                j.out(j.n).copy_from_slice(j.src());
                _ = unsafe { mst_softmax_in_place(false, j.dst.cast(), j.n) };
            },
            |j| {
                j.out(j.n).copy_from_slice(j.src());
                text::softmax_on(false, j.out(j.n));
            },
        ),
        normalize!("normalize", LOOKED_LIMIT, false, false),
        Kernel { bias: 0.0, ..normalize!("normalize_scale", LOOKED_LIMIT, true, false) },
        normalize!("normalize_both", LIMIT, true, true),
        kernel(
            "quantize",
            (-2.0, 2.0),
            LIMIT,
            |j| _ = unsafe { mst_quantize(j.inv_scale, j.zero_point, j.src, j.n, j.dst, j.n) },
            |j| text::quantize_to(j.inv_scale, j.zero_point, j.src(), j.out(j.n)),
        ),
    ]
}

pub fn all() -> Vec<Kernel> {
    [operators(), folds(), others(), calls()].into_iter().flatten().collect()
}
