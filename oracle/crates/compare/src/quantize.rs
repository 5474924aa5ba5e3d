//! Quantize: the text where every product is at most 2^30 in size, the reference beyond.

use crate::lent::Lent;
use crate::plan::{Mode, plan, setting, spoil};
use crate::tally::{Tally, hex};
use cases::Rng;
use reference::answer::DONE;
use reference::quantize::quantize;

unsafe extern "C" {
    fn mst_quantize(inv_scale: f32, zero_point: u8, src: *const f32, n: usize, dst: *mut u8, m: usize) -> u64;
}

pub fn compare(mode: Mode, report: &mut dyn FnMut(Tally)) {
    let mut tally = Tally::new("quantize, random calls");
    let mut rng = Rng::new("compare quantize");
    for _ in 0..mode.calls(400_000) {
        let plan = plan(&mut rng);
        let inv_scale = if rng.one_in(3) && !plan.bad_setting { 1.0 } else { setting(&mut rng, plan.bad_setting) };
        let far = rng.one_in(4);
        let mut src = rng.list(plan.n, |r| element(r, inv_scale, far));
        spoil(&mut rng, &mut src, plan.bad_elements, Rng::not_finite);
        let dst: Vec<u8> = (0..plan.m).map(|_| rng.word() as u8).collect();
        call(&mut tally, inv_scale, rng.word() as u8, &src, &dst);
    }
    report(tally);
}

/// Ties, codes and what lies about them; where `far`, any product.
fn element(rng: &mut Rng, inv_scale: f32, far: bool) -> f32 {
    let x = match rng.below(if far { 6 } else { 3 }) {
        0 => (rng.below(1200) as f32 - 600.0) / 2.0,
        1 => (rng.below(1200) as f32 - 600.0) / 2.0 / inv_scale,
        2 => rng.unit() * 400.0 / inv_scale,
        3 => 2147483648.0 * (1.0 + rng.unit() * 1e-6) / inv_scale,
        4 => rng.finite(),
        _ => rng.mixed(),
    };
    if x.is_finite() { x } else { rng.unit() }
}

fn call(tally: &mut Tally, inv_scale: f32, zero_point: u8, src: &[f32], dst: &[u8]) {
    let (lent, mut got, mut want) = (Lent::new(src), Lent::new(dst), dst.to_vec());
    // SAFETY: two lent slices of their own.
    let word = unsafe { mst_quantize(inv_scale, zero_point, lent.ptr(), lent.len(), got.ptr_mut(), got.len()) };
    let answer = quantize(inv_scale, zero_point, src, &mut want);
    let about = || format!("quantize by {} and {zero_point} of {} into {} codes", hex(&[inv_scale]), hex(src), dst.len());
    tally.answer(word, answer, &about);
    tally.lent("dst", &got, &want, &about);
    tally.lent("src", &lent, src, &about);
    if answer == DONE && src.iter().all(|x| (x * inv_scale).abs() <= 1073741824.0) {
        tally.same("dst against the text", got.slice(), &text::quantize(inv_scale, zero_point, src), &about);
    }
}
