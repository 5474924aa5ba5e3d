//! Compares the library's C functions with the Rust text and the reference, bit for bit; ends with 1 where one differs.

// A build compares the parts whose features are on: what the others would use is then idle.
#![allow(dead_code)]

mod damage;
mod lent;
mod plan;
mod tally;

#[cfg(feature = "meter")]
mod meter;
#[cfg(feature = "min_max")]
mod min_max;
#[cfg(feature = "moves")]
mod moves;
#[cfg(feature = "normalize")]
mod normalize;
#[cfg(feature = "quantize")]
mod quantize;
#[cfg(feature = "softmax")]
mod softmax;
#[cfg(feature = "split")]
mod split;
#[cfg(feature = "sum")]
mod sum;
#[cfg(feature = "table")]
mod table;
#[cfg(feature = "unary")]
mod unary;

use plan::Mode;
use tally::Tally;

type Part = (&'static str, fn(Mode, &mut dyn FnMut(Tally)));

/// The parts whose features are on.
const PARTS: &[Part] = &[
    #[cfg(feature = "unary")]
    ("unary", unary::compare),
    #[cfg(feature = "sum")]
    ("sum", sum::compare),
    #[cfg(feature = "min_max")]
    ("min_max", min_max::compare),
    #[cfg(feature = "softmax")]
    ("softmax", softmax::compare),
    #[cfg(feature = "normalize")]
    ("normalize", normalize::compare),
    #[cfg(feature = "quantize")]
    ("quantize", quantize::compare),
    #[cfg(feature = "split")]
    ("split", split::compare),
    #[cfg(feature = "meter")]
    ("meter", meter::compare),
    #[cfg(feature = "table")]
    ("table", table::compare),
    #[cfg(feature = "moves")]
    ("moves", moves::compare),
];

fn main() {
    let mode = match std::env::args().nth(1).as_deref() {
        Some("quick") => Mode::Quick,
        Some("whole") => Mode::Whole,
        _ => {
            eprintln!("compare: say quick or whole");
            std::process::exit(1);
        }
    };
    let mut differ = 0;
    for (name, compare) in PARTS {
        let from = std::time::Instant::now();
        compare(mode, &mut |tally| {
            tally.print();
            differ += tally.differ;
        });
        println!("{name}: {:.0} s", from.elapsed().as_secs_f32());
    }
    println!("{} parts compared, {differ} differences", PARTS.len());
    std::process::exit((differ > 0) as i32);
}
