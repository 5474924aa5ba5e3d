//! The meter: one feeding of any meter, and audio cut into pieces against the uncut feeding.

use crate::lent::Lent;
use crate::plan::{Mode, plan, spoil};
use crate::tally::{Tally, hex};
use cases::Rng;
use reference::answer::DONE;
use reference::meter::Meter;

unsafe extern "C" {
    fn mst_meter_feed(
        count: *mut u32,
        overs: *mut u32,
        sum_squares: *mut f32,
        least: *mut f32,
        largest: *mut f32,
        src: *const f32,
        n: usize,
    ) -> u64;
}

/// 1.0 and -1.0, and the f32 on either side of each.
const FULL_SCALE: [f32; 6] = [1.0, -1.0, 0.99999994, -0.99999994, 1.0000001, -1.0000001];

pub fn compare(mode: Mode, report: &mut dyn FnMut(Tally)) {
    let mut tally = Tally::new("meter, random feedings");
    let mut rng = Rng::new("compare meter");
    for _ in 0..mode.calls(400_000) {
        let plan = plan(&mut rng);
        let mut meter = if rng.one_in(3) { Meter::start() } else { any_meter(&mut rng, plan.n) };
        if plan.bad_setting {
            spoil_meter(&mut rng, &mut meter);
        }
        let mut src = match rng.below(4) {
            0 => rng.list(plan.n, Rng::mixed),
            1 => rng.list(plan.n, |r| r.pick(&[0.0, -0.0, 1e-45, -1e-45, 1.0])),
            2 => rng.list(plan.n, |r| r.pick(&FULL_SCALE)),
            _ => rng.list(plan.n, Rng::unit),
        };
        spoil(&mut rng, &mut src, plan.bad_elements, Rng::not_finite);
        let next = feed(&mut tally, meter, &src);
        if next.is_some() && rng.one_in(4) {
            pieces(&mut tally, &mut rng, meter, &src);
        }
    }
    report(tally);
}

/// Any count, also one that `n` more would or would not pass; infinities.
fn any_meter(rng: &mut Rng, n: usize) -> Meter {
    let count = match rng.below(4) {
        0 => u32::MAX - (n as u32).saturating_sub(rng.below(3) as u32),
        1 => u32::MAX - rng.below(40) as u32,
        _ => rng.word(),
    };
    let extreme = |r: &mut Rng| if r.one_in(4) { r.pick(&[f32::INFINITY, f32::NEG_INFINITY]) } else { r.mixed() };
    let sum_squares = if rng.one_in(8) { rng.pick(&[-0.0, f32::INFINITY, f32::MAX]) } else { rng.mixed().abs() };
    let overs = if rng.one_in(4) { count } else { rng.word().min(count) };
    Meter { count, overs, sum_squares, least: extreme(rng), largest: extreme(rng) }
}

fn spoil_meter(rng: &mut Rng, meter: &mut Meter) {
    let nan = f32::from_bits(rng.not_finite().to_bits() | 1);
    match rng.below(5) {
        0 => meter.sum_squares = nan,
        1 => meter.least = nan,
        2 => meter.largest = nan,
        // one more than the count, or any number past it
        3 => meter.overs = meter.count.saturating_add(if rng.one_in(2) { 1 } else { rng.word() }),
        _ => meter.sum_squares = rng.pick(&[-1e-45, -1.0, f32::NEG_INFINITY]),
    }
}

fn ours(m: Meter, src: &Lent<f32>) -> (u64, [Lent<f32>; 3], [Lent<u32>; 2]) {
    let [mut count, mut overs] = [m.count, m.overs].map(|n| Lent::new(&[n]));
    let [mut squares, mut least, mut largest] = [m.sum_squares, m.least, m.largest].map(|x| Lent::new(&[x]));
    // SAFETY: a lent slice and lent numbers of their own.
    let word = unsafe {
        mst_meter_feed(
            count.ptr_mut(),
            overs.ptr_mut(),
            squares.ptr_mut(),
            least.ptr_mut(),
            largest.ptr_mut(),
            src.ptr(),
            src.len(),
        )
    };
    (word, [squares, least, largest], [count, overs])
}

/// The next meter where done.
fn feed(tally: &mut Tally, m: Meter, src: &[f32]) -> Option<Meter> {
    let lent = Lent::new(src);
    let (word, [squares, least, largest], [count, overs]) = ours(m, &lent);
    let (answer, want) = match m.feed(src) {
        Ok(next) => (DONE, next),
        Err(refused) => (refused, m),
    };
    let about = || {
        let floats = hex(&[m.sum_squares, m.least, m.largest]);
        format!("feeding {} to the meter {:08x} {:08x} {floats}", hex(src), m.count, m.overs)
    };
    tally.answer(word, answer, &about);
    tally.lent("count", &count, &[want.count], &about);
    tally.lent("overs", &overs, &[want.overs], &about);
    tally.lent("sum_squares", &squares, &[want.sum_squares], &about);
    tally.lent("least", &least, &[want.least], &about);
    tally.lent("largest", &largest, &[want.largest], &about);
    tally.lent("src", &lent, src, &about);
    let [s, lo, hi] = [squares, least, largest].map(|x| x.slice()[0]);
    let [count, overs] = [count, overs].map(|n| n.slice()[0]);
    (word == 0).then_some(Meter { count, overs, sum_squares: s, least: lo, largest: hi })
}

/// The pieces in order give the meter of the uncut feeding.
fn pieces(tally: &mut Tally, rng: &mut Rng, start: Meter, src: &[f32]) {
    let Ok(uncut) = start.feed(src) else { return };
    let (mut meter, mut from) = (start, 0);
    while from < src.len() {
        let to = from + 1 + rng.below(src.len() - from);
        match feed(tally, meter, &src[from..to]) {
            Some(next) => meter = next,
            None => return tally.differs(|| format!("a piece of {} is refused", hex(src))),
        }
        from = to;
    }
    let words = |m: Meter| [m.count, m.overs, m.sum_squares.to_bits(), m.least.to_bits(), m.largest.to_bits()];
    tally.same("the meter", &words(meter), &words(uncut), &|| format!("pieces of {}", hex(src)));
}
