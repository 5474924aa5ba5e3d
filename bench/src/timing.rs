//! Medians of the thread's processor time and of the ratios to it, the contenders taking turns.

use crate::contender::Contender;
use crate::job::Job;

pub const SAMPLES: usize = 101;
pub const SAMPLE_NS: f64 = 1e6;

#[repr(C)]
struct Timespec {
    seconds: i64,
    nanoseconds: i64,
}

unsafe extern "C" {
    fn clock_gettime(clock: i32, time: *mut Timespec) -> i32;
}

/// Linux's number.
const CLOCK_THREAD_CPUTIME_ID: i32 = 3;

fn now() -> f64 {
    let mut time = Timespec { seconds: 0, nanoseconds: 0 };
    // SAFETY: a time of our own, 64 bits each as on every 64-bit Linux.
    let failed = unsafe { clock_gettime(CLOCK_THREAD_CPUTIME_ID, &mut time) };
    assert_eq!(failed, 0, "no clock of the thread's processor time");
    time.seconds as f64 * 1e9 + time.nanoseconds as f64
}

fn spent(contender: &Contender, job: &Job, times: usize) -> f64 {
    let start = now();
    contender.run(job, times);
    now() - start
}

/// How many calls make one sample.
fn calibrated(contender: &Contender, job: &Job) -> usize {
    let mut times = 1;
    loop {
        let ns = spent(contender, job, times);
        if ns > SAMPLE_NS / 4.0 {
            return (times as f64 * SAMPLE_NS / ns).ceil() as usize;
        }
        times *= 2;
    }
}

/// What one contender takes for a call.
pub struct Raced {
    pub ns: f64,
    /// The first contender's time by this one's, in one turn: a machine that changes its pace changes both.
    pub ratio: f64,
}

/// For each contender.
pub fn race(contenders: &[Contender], job: &Job) -> Vec<Raced> {
    let times: Vec<usize> = contenders.iter().map(|c| calibrated(c, job)).collect();
    let turn = |_| contenders.iter().zip(&times).map(|(c, &t)| spent(c, job, t) / t as f64).collect();
    let turns: Vec<Vec<f64>> = (0..SAMPLES).map(turn).collect();
    let over = |of: &dyn Fn(&[f64]) -> f64| median(turns.iter().map(|t| of(t)).collect());
    (0..contenders.len()).map(|i| Raced { ns: over(&|t| t[i]), ratio: over(&|t| t[0] / t[i]) }).collect()
}

fn median(mut samples: Vec<f64>) -> f64 {
    samples.sort_by(f64::total_cmp);
    samples[samples.len() / 2]
}
