//! Split, against the reference and against the reference's gains of the text's weights.

use crate::lent::Lent;
use crate::plan::{Mode, other_length, spoil};
use crate::tally::{Tally, hex};
use cases::Rng;
use reference::answer::DONE;
use reference::split::{BAND_LIMIT, gains, split};

unsafe extern "C" {
    fn mst_split(levels: *const f32, n: usize, gains: *mut u16, m: usize) -> u64;
}

const MASK: f32 = f32::NEG_INFINITY;

pub fn compare(mode: Mode, report: &mut dyn FnMut(Tally)) {
    let mut tally = Tally::new("split, random calls");
    let mut rng = Rng::new("compare split");
    for _ in 0..mode.calls(500_000) {
        let n = if rng.one_in(16) { rng.pick(&[0, BAND_LIMIT + 1, BAND_LIMIT + 2, 200]) } else { 1 + rng.below(BAND_LIMIT) };
        let mut levels = match rng.below(7) {
            0 => rng.list(n, Rng::mixed),
            1 => rng.list(n, |r| if r.one_in(3) { MASK } else { r.unit() * 12.0 }),
            2 => vec![MASK; n],
            3 => vec![rng.mixed(); n],
            4 => rng.list(n, |r| r.pick(&[0.0, -0.0, 1.0, -1.0, MASK])),
            5 => rng.list(n, |r| r.unit() * 40.0),
            _ => rng.list(n, |r| r.unit() * 3.0),
        };
        if rng.one_in(8) {
            let count = 1 + rng.below(3);
            spoil(&mut rng, &mut levels, count, Rng::not_finite);
        }
        let m = if rng.one_in(8) { other_length(&mut rng, n) } else { n };
        let old: Vec<u16> = (0..m).map(|_| rng.word() as u16).collect();
        call(&mut tally, &levels, &old);
    }
    report(tally);
}

fn call(tally: &mut Tally, levels: &[f32], old: &[u16]) {
    let (lent, mut got, mut want) = (Lent::new(levels), Lent::new(old), old.to_vec());
    // SAFETY: two lent slices of their own.
    let word = unsafe { mst_split(lent.ptr(), lent.len(), got.ptr_mut(), got.len()) };
    let answer = split(levels, &mut want);
    let about = || format!("split of {} into {} gains", hex(levels), old.len());
    tally.answer(word, answer, &about);
    tally.lent("gains", &got, &want, &about);
    tally.lent("levels", &lent, levels, &about);
    if answer == DONE {
        let from_text = gains(&text::softmax(false, levels));
        tally.same("gains by the text's weights", got.slice(), &from_text, &about);
    }
}
