//! The five sums. `result` is written on every call, +0 on a refusal.

use crate::lent::Lent;
use crate::plan::{Mode, plan, setting, spoil};
use crate::tally::{Tally, hex};
use cases::Rng;
use reference::answer::DONE;
use reference::sum::{Kind, sum};

unsafe extern "C" {
    fn mst_sum(src: *const f32, n: usize, result: *mut f32) -> u64;
    fn mst_sum_square(src: *const f32, n: usize, result: *mut f32) -> u64;
    fn mst_sum_abs(src: *const f32, n: usize, result: *mut f32) -> u64;
    fn mst_sum_square_sub(offset: f32, src: *const f32, n: usize, result: *mut f32) -> u64;
    fn mst_sum_exp_sub(offset: f32, src: *const f32, n: usize, result: *mut f32) -> u64;
}

fn ours(kind: Kind, src: &Lent<f32>, result: &mut Lent<f32>) -> u64 {
    let (src, n, result) = (src.ptr(), src.len(), result.ptr_mut());
    // SAFETY: a lent slice and one lent number of their own.
    unsafe {
        match kind {
            Kind::Sum => mst_sum(src, n, result),
            Kind::SumSquare => mst_sum_square(src, n, result),
            Kind::SumAbs => mst_sum_abs(src, n, result),
            Kind::SumSquareSub(offset) => mst_sum_square_sub(offset, src, n, result),
            Kind::SumExpSub(offset) => mst_sum_exp_sub(offset, src, n, result),
        }
    }
}

pub fn compare(mode: Mode, report: &mut dyn FnMut(Tally)) {
    let mut tally = Tally::new("sum, random calls");
    let mut rng = Rng::new("compare sum");
    for i in 0..mode.calls(500_000) {
        let plan = plan(&mut rng);
        let offset = setting(&mut rng, plan.bad_setting);
        let kind = match i % 5 {
            0 => Kind::Sum,
            1 => Kind::SumSquare,
            2 => Kind::SumAbs,
            3 => Kind::SumSquareSub(offset),
            _ => Kind::SumExpSub(offset),
        };
        let mut src = match rng.below(4) {
            0 => rng.list(plan.n, |r| r.unit() * 10.0),
            1 => rng.list(plan.n, Rng::finite),
            2 => rng.list(plan.n, |r| r.pick(&[0.0, -0.0, 1e-45, -1e-45, 1e-23])),
            _ => rng.list(plan.n, Rng::mixed),
        };
        spoil(&mut rng, &mut src, plan.bad_elements, Rng::not_finite);
        call(&mut tally, kind, &src);
    }
    report(tally);
}

fn call(tally: &mut Tally, kind: Kind, src: &[f32]) {
    let lent = Lent::new(src);
    let mut result = Lent::new(&[f32::from_bits(0x7fc0_1234)]);
    let word = ours(kind, &lent, &mut result);
    let (answer, want) = sum(kind, src);
    let about = || format!("{kind:?} of {}", hex(src));
    tally.answer(word, answer, &about);
    tally.lent("result", &result, &[want], &about);
    tally.lent("src", &lent, src, &about);
    if answer == DONE {
        tally.same("result against the text", result.slice(), &[text::sum(kind, src)], &about);
    }
}
