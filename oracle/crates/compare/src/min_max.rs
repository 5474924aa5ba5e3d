//! The extremes. `least`, `largest` and `result` are written on every call, +0 on a refusal.

use crate::lent::Lent;
use crate::plan::{Mode, plan, spoil};
use crate::tally::{Tally, hex};
use cases::Rng;
use reference::answer::DONE;
use reference::extremes::min_max;

unsafe extern "C" {
    fn mst_min_max(src: *const f32, n: usize, least: *mut f32, largest: *mut f32) -> u64;
    fn mst_max_num(src: *const f32, n: usize, result: *mut f32) -> u64;
    fn mst_min_num(src: *const f32, n: usize, result: *mut f32) -> u64;
}

pub fn compare(mode: Mode, report: &mut dyn FnMut(Tally)) {
    let mut tally = Tally::new("min_max, random calls");
    let mut rng = Rng::new("compare min_max");
    let inf = f32::INFINITY;
    for _ in 0..mode.calls(500_000) {
        let plan = plan(&mut rng);
        let mut src = match rng.below(3) {
            0 => rng.list(plan.n, |r| r.pick(&[0.0, -0.0, 0.0, -0.0, inf, -inf, 1.0])),
            1 => rng.list(plan.n.min(4), |r| r.pick(&[0.0, -0.0, 1e-45, -1e-45])),
            _ => rng.list(plan.n, |r| if r.one_in(10) { r.pick(&[inf, -inf]) } else { r.mixed() }),
        };
        // Infinities are in the domain: of what is put in, the NaNs are refused.
        spoil(&mut rng, &mut src, plan.bad_elements, Rng::not_finite);
        call(&mut tally, &src);
    }
    report(tally);
}

fn call(tally: &mut Tally, src: &[f32]) {
    let lent = Lent::new(src);
    let [mut least, mut largest, mut max_num, mut min_num] =
        [0x7fc0_1234, 0xffc0_0001, 0x3f80_0000, 0x8000_0000].map(|b| Lent::new(&[f32::from_bits(b)]));
    // SAFETY: a lent slice and lent numbers of their own.
    let words = unsafe {
        [
            mst_min_max(lent.ptr(), lent.len(), least.ptr_mut(), largest.ptr_mut()),
            mst_max_num(lent.ptr(), lent.len(), max_num.ptr_mut()),
            mst_min_num(lent.ptr(), lent.len(), min_num.ptr_mut()),
        ]
    };
    let (answer, low, high) = min_max(src);
    let about = || format!("extremes of {}", hex(src));
    for word in words {
        tally.answer(word, answer, &about);
    }
    tally.lent("least", &least, &[low], &about);
    tally.lent("largest", &largest, &[high], &about);
    tally.lent("max_num", &max_num, &[high], &about);
    tally.lent("min_num", &min_num, &[low], &about);
    tally.lent("src", &lent, src, &about);
    if answer == DONE {
        // The readings of the text in which a held zero stays.
        let (first, second) = (text::first_kept(src), text::second_kept(src));
        let got = [least.slice()[0], largest.slice()[0], max_num.slice()[0], min_num.slice()[0]];
        let want = [second.least, second.largest, first.max_num, first.min_num];
        tally.same("extremes against the text", &got, &want, &about);
    }
}
