//! flat [SECONDS]: looks for the lists of 1 to 64 elements whose weights, added up exactly, are farthest from 1, and prints what part of request
//! L14's bound they reach. The time, a minute without a word, is shared among the lengths. Fails where a part passes 1.

mod exact;
mod search;

use search::{Worst, worst};
use std::time::{Duration, Instant};

const LONGEST: usize = 64;

fn main() {
    let seconds = match std::env::args().nth(1).map(|word| word.parse::<u32>()) {
        None => 60,
        Some(Ok(seconds)) if seconds > 0 => seconds,
        Some(_) => {
            eprintln!("flat: say for how many seconds, a whole number from 1 on");
            std::process::exit(1);
        }
    };
    println!("n: the part of (n + 2) * 2^125 reached above 2^149, and below it; lists tried");
    let (start, mut tried, mut most, mut within) = (Instant::now(), 0, Worst::default(), true);
    for n in 1..=LONGEST {
        // Longer lists have more time: a try takes longer.
        let end = start + Duration::from_secs(seconds.into()) * (n * (n + 1)) as u32 / (LONGEST * (LONGEST + 1)) as u32;
        let [above, below] = worst(n, end);
        println!("{n}: {:.6} {:.6}; {}", above.part, below.part, above.tried + below.tried);
        for found in [above, below] {
            tried += found.tried;
            within &= found.within;
            if found.part > most.part {
                most = found;
            }
        }
    }
    let bits: Vec<String> = most.list.iter().map(|x| format!("{:08x}", x.to_bits())).collect();
    println!("{tried} lists; the largest part is {:.6}, of {} elements: {}", most.part, most.list.len(), bits.join(" "));
    if !within {
        eprintln!("flat: a list passes the bound");
        std::process::exit(1);
    }
}
