//! Times every kernel of the library against the Rust text, branch-free C, glibc and SLEEF, in one run.
//! Its argument is the machine as `uname -m` gives it.

mod calls;
mod contender;
mod job;
mod kernels;
mod library;
mod report;
mod timing;

use contender::{Contender, agree, of};
use job::{Buffers, Job};
use kernels::Kernel;
use report::Line;
use std::env::consts::ARCH;

const SIZES: [usize; 4] = [16, 64, 1024, 16_384];

fn main() {
    let machine = std::env::args().nth(1).unwrap_or(ARCH.to_string());
    let kernels = kernels::all();
    each(&kernels, |kernel, contenders, job| {
        if let Err(who) = agree(contenders, job) {
            eprintln!("bench: {} at n = {}: other bits from {who:?} than from ours, so nothing is timed", kernel.name, job.n);
            std::process::exit(1);
        }
    });
    let mut lines = vec![];
    each(&kernels, |kernel, contenders, job| {
        let raced = timing::race(contenders, job);
        lines.push(Line { kernel, n: job.n, raced: contenders.iter().map(|c| c.who).zip(raced).collect() });
    });
    report::print(&machine, &lines, &SIZES);
}

/// Every kernel at each of its sizes.
fn each<'a>(kernels: &'a [Kernel], mut visit: impl FnMut(&'a Kernel, &[Contender], &Job)) {
    let mut buffers = Buffers::new();
    for kernel in kernels {
        buffers.draw(kernel.range.0, kernel.range.1);
        let sizes = kernel.only.map_or(SIZES.to_vec(), |n| vec![n]);
        for n in sizes {
            visit(kernel, &of(kernel), &buffers.job(n, kernel.bias));
        }
    }
}
