//! Writes the stored answers of the replay programs, one file a kernel.
//! Ends with 1, nothing written, where the text and the reference differ.

mod file;
mod inputs;
mod min_max;
mod normalize;
mod quantize;
mod softmax;
mod split;
mod sum;
mod unary;

use std::path::PathBuf;

fn main() {
    let Some(out) = std::env::args_os().nth(1).map(PathBuf::from) else {
        eprintln!("answers: give the folder to write to");
        std::process::exit(1);
    };
    let files = [
        unary::file(),
        sum::file(),
        min_max::file(),
        softmax::file(),
        normalize::file(),
        quantize::file(),
        quantize::far_file(),
        split::file(),
    ];
    let faults: Vec<&String> = files.iter().flat_map(|f| &f.faults).collect();
    for fault in &faults {
        eprintln!("{fault}");
    }
    if !faults.is_empty() {
        eprintln!("answers: {} faults, nothing written", faults.len());
        std::process::exit(1);
    }
    for f in &files {
        if let Err(why) = std::fs::write(out.join(f.name), &f.text) {
            eprintln!("answers: {}: {why}", out.join(f.name).display());
            std::process::exit(1);
        }
        println!("{} cases {} words {} bytes {}", f.name, f.cases, f.text.len() / 9, f.text.len());
    }
}
