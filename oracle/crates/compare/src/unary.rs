//! The twelve operators: every pattern, random calls with faults, and the requests that depart from the text by name.

use crate::lent::Lent;
use crate::plan::{Mode, plan, setting, spoil, stale};
use crate::tally::{Tally, hex};
use cases::Rng;
use reference::Answer;
use reference::answer::{DONE, ELEMENT_LIMIT};
use reference::unary::{Op, apply, departs, eval, in_domain};

unsafe extern "C" {
    fn mst_exp(src: *const f32, n: usize, dst: *mut f32, m: usize) -> u64;
    fn mst_reduced_range_exp(src: *const f32, n: usize, dst: *mut f32, m: usize) -> u64;
    fn mst_sigmoid(src: *const f32, n: usize, dst: *mut f32, m: usize) -> u64;
    fn mst_silu(src: *const f32, n: usize, dst: *mut f32, m: usize) -> u64;
    fn mst_swish(alpha: f32, src: *const f32, n: usize, dst: *mut f32, m: usize) -> u64;
    fn mst_elu(alpha: f32, src: *const f32, n: usize, dst: *mut f32, m: usize) -> u64;
    fn mst_tanh(src: *const f32, n: usize, dst: *mut f32, m: usize) -> u64;
    fn mst_erf(src: *const f32, n: usize, dst: *mut f32, m: usize) -> u64;
    fn mst_gelu(src: *const f32, n: usize, dst: *mut f32, m: usize) -> u64;
    fn mst_approx_gelu(src: *const f32, n: usize, dst: *mut f32, m: usize) -> u64;
    fn mst_sin(src: *const f32, n: usize, dst: *mut f32, m: usize) -> u64;
    fn mst_cos(src: *const f32, n: usize, dst: *mut f32, m: usize) -> u64;
}

/// # Safety
/// `src` and `dst` are lent slices that don't overlap.
unsafe fn ours(op: Op, (src, n): (*const f32, usize), (dst, m): (*mut f32, usize)) -> u64 {
    // SAFETY: the caller's promise.
    unsafe {
        match op {
            Op::Exp => mst_exp(src, n, dst, m),
            Op::ReducedRangeExp => mst_reduced_range_exp(src, n, dst, m),
            Op::Sigmoid => mst_sigmoid(src, n, dst, m),
            Op::Silu => mst_silu(src, n, dst, m),
            Op::Swish(alpha) => mst_swish(alpha, src, n, dst, m),
            Op::Elu(alpha) => mst_elu(alpha, src, n, dst, m),
            Op::Tanh => mst_tanh(src, n, dst, m),
            Op::Erf => mst_erf(src, n, dst, m),
            Op::Gelu => mst_gelu(src, n, dst, m),
            Op::ApproxGelu => mst_approx_gelu(src, n, dst, m),
            Op::Sin => mst_sin(src, n, dst, m),
            Op::Cos => mst_cos(src, n, dst, m),
        }
    }
}

const ALPHAS: [f32; 6] = [1.702, -1.0, f32::MAX, 0.0, -0.0, f32::from_bits(1)];
const PLAIN: [Op; 10] =
    [Op::Exp, Op::ReducedRangeExp, Op::Sigmoid, Op::Silu, Op::Tanh, Op::Erf, Op::Gelu, Op::ApproxGelu, Op::Sin, Op::Cos];

pub fn compare(mode: Mode, report: &mut dyn FnMut(Tally)) {
    let operators = asked();
    report(random_calls(mode));
    report(zeros_keep_sign());
    for op in operators {
        let halves = std::thread::scope(|s| {
            let threads = [0, 1].map(|half| s.spawn(move || patterns(mode, op, half)));
            threads.map(|t| t.join().unwrap())
        });
        let mut all = Tally::new(&format!("unary {op:?}, patterns"));
        halves.into_iter().for_each(|half| all.join(half));
        report(all);
    }
}

/// The operators that the program's arguments name after the mode, or all; with an alpha, at each of `ALPHAS`.
fn asked() -> Vec<Op> {
    let with_alpha = ALPHAS.into_iter().flat_map(|a| [Op::Swish(a), Op::Elu(a)]);
    let mut all: Vec<Op> = PLAIN.into_iter().chain(with_alpha).collect();
    let names: Vec<String> = std::env::args().skip(2).collect();
    let is = |op: &Op, name: &str| format!("{op:?}").split('(').next() == Some(name);
    if let Some(name) = names.iter().find(|name| !all.iter().any(|op| is(op, name))) {
        eprintln!("compare: {name} is no operator");
        std::process::exit(1);
    }
    all.retain(|op| names.is_empty() || names.iter().any(|name| is(op, name)));
    all
}

/// Patterns go by blocks of this many.
const BLOCK: u32 = 1 << 16;
/// Quick: of a block one pattern in so many, but every one of the blocks at these sizes.
const STRIDE: u32 = 64;
const EDGES: [f32; 16] = [
    0.0,
    1.1754942e-38,
    0.0004,
    0.3465736,
    0.55,
    1.0,
    std::f32::consts::FRAC_PI_2,
    std::f32::consts::PI,
    9.02,
    17.3,
    87.67312,
    88.72284,
    103.97208,
    104.0,
    48000.0,
    f32::MAX,
];

fn at_edge(block: u32) -> bool {
    let size = block & 0x7fff;
    EDGES.iter().any(|x| size.abs_diff(x.to_bits() / BLOCK) <= 1)
}

/// Every second block of patterns from `half` on: in the domain against `wanted`, outside it refused.
fn patterns(mode: Mode, op: Op, half: u32) -> Tally {
    let mut tally = Tally::new("");
    let mut src = Vec::with_capacity(ELEMENT_LIMIT);
    let mut outside = 0u32;
    for block in (half..=u32::MAX / BLOCK).step_by(2) {
        let whole = mode == Mode::Whole || at_edge(block);
        let (from, step) = if whole { (0, 1) } else { (block % STRIDE, STRIDE) };
        for low in (from..BLOCK).step_by(step as usize) {
            let x = f32::from_bits(block * BLOCK + low);
            if in_domain(op, x) {
                src.push(x);
                if src.len() == ELEMENT_LIMIT {
                    many(&mut tally, op, &src);
                    src.clear();
                }
            } else {
                outside = outside.wrapping_add(1);
                refused(&mut tally, op, x, outside as usize % 4);
            }
        }
    }
    many(&mut tally, op, &src);
    tally
}

/// L4: both zeros come out of `Tanh` as they went in, where the text gives -0 for either.
fn zeros_keep_sign() -> Tally {
    let mut tally = Tally::new("unary Tanh, both zeros by L4");
    let zeros = [0.0, -0.0];
    call(&mut tally, Op::Tanh, &zeros, &[7.0; 2]);
    let mut text = [7.0; 2];
    text::map(Op::Tanh, &zeros, &mut text);
    tally.same("the text", &text, &[-0.0; 2], &|| format!("Tanh of {}", hex(&zeros)));
    tally
}

/// What the text gives, but the rule's results where a request departs from it.
fn wanted(op: Op, src: &[f32]) -> Vec<f32> {
    let mut want = vec![0.0; src.len()];
    text::map(op, src, &mut want);
    for (&x, y) in src.iter().zip(&mut want).filter(|(x, _)| departs(op, **x).is_some()) {
        *y = eval(op, x);
    }
    want
}

fn many(tally: &mut Tally, op: Op, src: &[f32]) {
    let want = wanted(op, src);
    let mut got = vec![0.0; src.len()];
    // SAFETY: two slices of their own.
    let answer = unsafe { ours(op, (src.as_ptr(), src.len()), (got.as_mut_ptr(), got.len())) };
    tally.answer(answer, DONE, &|| format!("{op:?} of {} patterns from {:08x}", src.len(), src[0].to_bits()));
    tally.count(src.len() as u64);
    let same = got.iter().zip(&want).fold(true, |s, (a, b)| s & (a.to_bits() == b.to_bits()));
    if !same {
        for ((x, a), b) in src.iter().zip(&got).zip(&want).filter(|((_, a), b)| a.to_bits() != b.to_bits()) {
            let by = departs(op, *x).unwrap_or("the text");
            tally.differs(|| format!("{op:?} of {:08x} is {:08x}, {by} gives {:08x}", x.to_bits(), a.to_bits(), b.to_bits()));
        }
    }
}

/// `x` outside the domain at `place` of four elements.
fn refused(tally: &mut Tally, op: Op, x: f32, place: usize) {
    const OLD: [f32; 4] = [f32::from_bits(0x7fa0_0001), -0.0, f32::from_bits(0xffff_ffff), 2.5];
    let mut src = [-0.0; 4];
    src[place] = x;
    let mut dst = OLD;
    // SAFETY: two arrays of their own.
    let answer = unsafe { ours(op, (src.as_ptr(), 4), (dst.as_mut_ptr(), 4)) };
    let about = || format!("{op:?} of {}", hex(&src));
    tally.answer(answer, Answer { number: 4, place }, &about);
    if dst.map(f32::to_bits) != OLD.map(f32::to_bits) {
        tally.differs(|| format!("{}: refused, but dst is {}", about(), hex(&dst)));
    }
}

fn random_calls(mode: Mode) -> Tally {
    let mut tally = Tally::new("unary, random calls");
    let mut rng = Rng::new("compare unary");
    for i in 0..mode.calls(600_000) {
        let plan = plan(&mut rng);
        let alpha = setting(&mut rng, plan.bad_setting);
        let op = match i % 12 {
            10 => Op::Swish(alpha),
            11 => Op::Elu(alpha),
            k => PLAIN[k],
        };
        let mut src = rng.list(plan.n, |r| inside(r, op));
        spoil(&mut rng, &mut src, plan.bad_elements, |r| outside(r, op));
        let dst = stale(&mut rng, plan.m);
        call(&mut tally, op, &src, &dst);
    }
    tally
}

fn inside(rng: &mut Rng, op: Op) -> f32 {
    loop {
        let x = rng.mixed();
        for x in [x, -x.abs(), x % 48000.0] {
            if in_domain(op, x) {
                return x;
            }
        }
    }
}

/// Mostly outside the domain.
fn outside(rng: &mut Rng, op: Op) -> f32 {
    match op {
        Op::ReducedRangeExp if rng.one_in(2) => rng.mixed().abs(),
        Op::Sin | Op::Cos if rng.one_in(2) => rng.pick(&[48000.0, -48000.0, 1e9, f32::MAX, 47999.996]),
        _ => rng.not_finite(),
    }
}

fn call(tally: &mut Tally, op: Op, src: &[f32], dst: &[f32]) {
    let lent = Lent::new(src);
    let mut got = Lent::new(dst);
    let mut want = dst.to_vec();
    let answer = apply(op, src, &mut want);
    // SAFETY: two lent slices of their own.
    let word = unsafe { ours(op, (lent.ptr(), lent.len()), (got.ptr_mut(), got.len())) };
    let about = || format!("{op:?} of {} into {} numbers", hex(src), dst.len());
    tally.answer(word, answer, &about);
    tally.lent("dst", &got, &want, &about);
    tally.lent("src", &lent, src, &about);
    if answer == DONE {
        tally.same("dst against the text", got.slice(), &wanted(op, src), &about);
    }
}
