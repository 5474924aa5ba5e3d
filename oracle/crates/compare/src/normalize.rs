//! Normalize, from one slice into another and in place. An absent slice is lent with another length and NaNs in it.

use crate::lent::Lent;
use crate::plan::{Mode, other_length, plan, setting, spoil, stale};
use crate::tally::{Tally, hex};
use cases::{ENDS, Rng};
use reference::answer::DONE;
use reference::normalize::{By, Settings, normalize, normalize_in_place};

unsafe extern "C" {
    fn mst_normalize(
        pre_scale_bias: f32,
        scale: f32,
        bias: f32,
        has_scale: bool,
        element_scale: *const f32,
        ns: usize,
        has_bias: bool,
        element_bias: *const f32,
        nb: usize,
        src: *const f32,
        n: usize,
        dst: *mut f32,
        m: usize,
    ) -> u64;
    fn mst_normalize_in_place(
        pre_scale_bias: f32,
        scale: f32,
        bias: f32,
        has_scale: bool,
        element_scale: *const f32,
        ns: usize,
        has_bias: bool,
        element_bias: *const f32,
        nb: usize,
        data: *mut f32,
        n: usize,
    ) -> u64;
}

/// The arguments before the data.
struct Given {
    settings: Settings,
    has_scale: bool,
    scales: Vec<f32>,
    has_bias: bool,
    biases: Vec<f32>,
}

impl Given {
    fn by(&self) -> By<'_> {
        By {
            settings: self.settings,
            scales: self.has_scale.then_some(&self.scales[..]),
            biases: self.has_bias.then_some(&self.biases[..]),
        }
    }
    fn about(&self) -> String {
        let Settings { pre_scale_bias, scale, bias } = self.settings;
        let slice = |has: bool, xs: &[f32]| if has { hex(xs) } else { "absent".to_string() };
        let (scales, biases) = (slice(self.has_scale, &self.scales), slice(self.has_bias, &self.biases));
        format!("normalize by {}, scales {scales}, biases {biases}", hex(&[pre_scale_bias, scale, bias]))
    }
}

pub fn compare(mode: Mode, report: &mut dyn FnMut(Tally)) {
    let mut tally = Tally::new("normalize, random calls");
    let mut rng = Rng::new("compare normalize");
    for _ in 0..mode.calls(400_000) {
        let plan = plan(&mut rng);
        let (has_scale, has_bias) = (rng.one_in(2), rng.one_in(2));
        let kind = rng.below(4);
        // Ends by ends: infinities inside, some of which end in a NaN.
        let draw = |r: &mut Rng| match kind {
            0 => r.mixed(),
            1 => r.pick(&ENDS),
            _ => r.unit() * 4.0,
        };
        let mut lists = [0; 3].map(|_| rng.list(plan.n, draw));
        for _ in 0..plan.bad_elements {
            let which = rng.below(3);
            spoil(&mut rng, &mut lists[which], 1, Rng::not_finite);
        }
        let [src, scales, biases] = lists;
        let wrong = plan.m != plan.n;
        let bad = plan.bad_setting.then(|| rng.below(3));
        let mut one = |i: usize| if kind == 1 && bad.is_none() { rng.pick(&ENDS) } else { setting(&mut rng, bad == Some(i)) };
        let mut settings = Settings { pre_scale_bias: one(0), scale: one(1), bias: one(2) };
        if bad != Some(2) && rng.one_in(3) {
            settings.bias = rng.pick(&[0.0, -0.0]);
        }
        let scales = slice(&mut rng, has_scale, wrong, scales);
        let biases = slice(&mut rng, has_bias, wrong, biases);
        let m = if wrong && rng.one_in(2) { plan.n } else { plan.m };
        let dst = stale(&mut rng, m);
        call(&mut tally, &Given { settings, has_scale, scales, has_bias, biases }, &src, &dst);
    }
    report(tally);
}

/// The slice itself, one of another length, or, where absent, anything.
fn slice(rng: &mut Rng, has: bool, wrong: bool, xs: Vec<f32>) -> Vec<f32> {
    if has && !(wrong && rng.one_in(2)) {
        return xs;
    }
    let n = other_length(rng, xs.len());
    if has { rng.list(n, Rng::mixed) } else { rng.list(n, Rng::not_finite) }
}

fn call(tally: &mut Tally, given: &Given, src: &[f32], dst: &[f32]) {
    let Settings { pre_scale_bias, scale, bias } = given.settings;
    let (scales, biases, lent, mut got) = (Lent::new(&given.scales), Lent::new(&given.biases), Lent::new(src), Lent::new(dst));
    // SAFETY: lent slices of their own.
    let word = unsafe {
        mst_normalize(
            pre_scale_bias,
            scale,
            bias,
            given.has_scale,
            scales.ptr(),
            scales.len(),
            given.has_bias,
            biases.ptr(),
            biases.len(),
            lent.ptr(),
            lent.len(),
            got.ptr_mut(),
            got.len(),
        )
    };
    let mut want = dst.to_vec();
    let answer = normalize(given.by(), src, &mut want);
    let about = || format!("{} of {} into {} numbers", given.about(), hex(src), dst.len());
    tally.answer(word, answer, &about);
    tally.lent("dst", &got, &want, &about);
    tally.lent("src", &lent, src, &about);
    tally.lent("scales", &scales, &given.scales, &about);
    tally.lent("biases", &biases, &given.biases, &about);
    if answer == DONE {
        tally.same("dst against the text", got.slice(), &text::normalize(given.by(), src), &about);
    }
    in_place(tally, given, src);
}

fn in_place(tally: &mut Tally, given: &Given, src: &[f32]) {
    let Settings { pre_scale_bias, scale, bias } = given.settings;
    let (scales, biases, mut data) = (Lent::new(&given.scales), Lent::new(&given.biases), Lent::new(src));
    // SAFETY: lent slices of their own.
    let word = unsafe {
        mst_normalize_in_place(
            pre_scale_bias,
            scale,
            bias,
            given.has_scale,
            scales.ptr(),
            scales.len(),
            given.has_bias,
            biases.ptr(),
            biases.len(),
            data.ptr_mut(),
            data.len(),
        )
    };
    let mut want = src.to_vec();
    let answer = normalize_in_place(given.by(), &mut want);
    let about = || format!("{}, in place, of {}", given.about(), hex(src));
    tally.answer(word, answer, &about);
    tally.lent("data", &data, &want, &about);
    if answer == DONE {
        tally.same("data against the text", data.slice(), &text::normalize_in_place(given.by(), src), &about);
    }
}
