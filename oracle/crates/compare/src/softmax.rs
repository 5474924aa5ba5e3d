//! Softmax, from one slice into another and in place.

use crate::lent::Lent;
use crate::plan::{Mode, plan, spoil, stale};
use crate::tally::{Tally, hex};
use cases::Rng;
use reference::answer::DONE;
use reference::softmax::{softmax, softmax_in_place};

unsafe extern "C" {
    fn mst_softmax(flush: bool, src: *const f32, n: usize, dst: *mut f32, m: usize) -> u64;
    fn mst_softmax_in_place(flush: bool, data: *mut f32, n: usize) -> u64;
}

const MASK: f32 = f32::NEG_INFINITY;

pub fn compare(mode: Mode, report: &mut dyn FnMut(Tally)) {
    let mut tally = Tally::new("softmax, random calls");
    let mut rng = Rng::new("compare softmax");
    for _ in 0..mode.calls(400_000) {
        let plan = plan(&mut rng);
        let n = if rng.one_in(8) { plan.n.min(3) } else { plan.n };
        let m = if plan.m == plan.n { n } else { plan.m };
        let mut src = match rng.below(6) {
            0 => rng.list(n, Rng::mixed),
            1 => rng.list(n, |r| if r.one_in(3) { MASK } else { r.unit() * 90.0 }),
            2 => vec![MASK; n],
            3 => rng.list(n, |r| r.pick(&[0.0, -0.0, MASK, -87.67312, -87.67313])),
            4 => rng.list(n, |r| if r.one_in(8) { MASK } else { r.finite() }),
            _ => rng.list(n, |r| r.unit() * 10.0),
        };
        // Minus infinity is a mask: of what is put in, the others are refused.
        spoil(&mut rng, &mut src, plan.bad_elements, Rng::not_finite);
        let dst = stale(&mut rng, m);
        call(&mut tally, rng.one_in(2), &src, &dst);
    }
    report(tally);
}

fn call(tally: &mut Tally, flush: bool, src: &[f32], dst: &[f32]) {
    let (lent, mut got, mut want) = (Lent::new(src), Lent::new(dst), dst.to_vec());
    // SAFETY: two lent slices of their own.
    let word = unsafe { mst_softmax(flush, lent.ptr(), lent.len(), got.ptr_mut(), got.len()) };
    let answer = softmax(flush, src, &mut want);
    let about = || format!("softmax, flush {flush}, of {} into {} numbers", hex(src), dst.len());
    tally.answer(word, answer, &about);
    tally.lent("dst", &got, &want, &about);
    tally.lent("src", &lent, src, &about);
    if answer == DONE {
        tally.same("dst against the text", got.slice(), &text::softmax(flush, src), &about);
    }

    let (mut data, mut want) = (Lent::new(src), src.to_vec());
    // SAFETY: one lent slice.
    let word = unsafe { mst_softmax_in_place(flush, data.ptr_mut(), data.len()) };
    let answer = softmax_in_place(flush, &mut want);
    let about = || format!("softmax in place, flush {flush}, of {}", hex(src));
    tally.answer(word, answer, &about);
    tally.lent("data", &data, &want, &about);
    if answer == DONE {
        tally.same("data against the text", data.slice(), &text::softmax_in_place(flush, src), &about);
    }
}
