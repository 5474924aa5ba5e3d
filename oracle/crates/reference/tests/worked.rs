//! Document 01, "Sums by hand", as document 02 has changed them.

use reference::Answer;
use reference::answer::DONE;
use reference::quantize::quantize;
use reference::split::split;
use reference::table::{BLOCK, blocks, read, read_block, seal, write};
use reference::unary::{Op, apply, eval};

const MASK: f32 = f32::NEG_INFINITY;

fn gains(levels: &[f32]) -> Vec<u16> {
    let mut out = vec![0; levels.len()];
    assert_eq!(split(levels, &mut out), DONE);
    out
}

fn refusal(levels: &[f32]) -> (u8, usize) {
    let answer = split(levels, &mut vec![0; levels.len()]);
    (answer.number, answer.place)
}

#[test]
fn splits() {
    assert_eq!(gains(&[0.0]), [32768]);
    assert_eq!(gains(&[0.0; 2]), [16384; 2]);
    assert_eq!(gains(&[-7.25; 3]), [10923, 10923, 10922]);
    assert_eq!(gains(&[f32::MAX; 5]), [6554, 6554, 6554, 6553, 6553]);
    assert_eq!(gains(&[0.0, -100.0]), [32768, 0]);
    assert_eq!(gains(&[0.0, MASK, 0.0]), [16384, 0, 16384]);
    // in steps of 2^-24 the shares end in a half each, and the lower band is ahead
    assert_eq!(gains(&[-0.27, 0.0]), [14185, 18583]);
    assert_eq!(refusal(&[]), (7, 0));
    assert_eq!(refusal(&[0.0; 65]), (7, 0));
    assert_eq!(refusal(&[MASK; 3]), (5, 0));
    assert_eq!(refusal(&[0.0, f32::NAN]), (4, 1));
}

/// n equal levels: 32768 / n for each, one part more for the first 32768 mod n.
#[test]
fn equal_bands() {
    for n in 1..=64 {
        let want: Vec<u16> = (0..n).map(|i| (32768 / n + (i < 32768 % n) as usize) as u16).collect();
        assert_eq!(gains(&vec![0.7; n]), want);
    }
}

#[test]
fn operators() {
    assert_eq!(eval(Op::ReducedRangeExp, 0.0).to_bits(), 0x3f80_0000);
    assert_eq!(eval(Op::Exp, 104.0).to_bits(), 0x7f80_0000);
    assert_eq!(eval(Op::Exp, -104.0).to_bits(), 0);
    assert_eq!(eval(Op::Tanh, 0.0).to_bits(), 0);
    assert_eq!(eval(Op::Tanh, -0.0).to_bits(), 0x8000_0000);
    assert_eq!(apply(Op::Sin, &[48000.0], &mut [0.0]).number, 4);
    for (n, number) in [(16_384, 0), (16_385, 2)] {
        assert_eq!(apply(Op::Exp, &vec![0.0; n], &mut vec![0.0; n]).number, number);
    }
}

#[test]
fn codes() {
    let mut out = [9; 5];
    assert_eq!(quantize(1.0, 0, &[0.5, 1.5, 2.5, -1.0, 300.0], &mut out), DONE);
    assert_eq!(out, [0, 2, 2, 0, 255]);
    let mut out = [9];
    assert_eq!(quantize(1.0, 128, &[-0.5], &mut out), DONE);
    assert_eq!(out, [128]);
}

#[test]
fn one_row_table() {
    let mut bytes = [9; 512];
    assert_eq!(write(1, 1, &[32768], &mut bytes), DONE);
    assert_eq!(bytes[..10], [1, 0, 0, 0, 1, 0, 1, 0, 0, 0x80]);
    assert!(bytes[10..508].iter().all(|&b| b == 0));
    assert_eq!(bytes[508..], [0x83, 0, 0x0d, 5]);
    let (header, gains) = read(&bytes, 1).unwrap();
    assert_eq!((header.bands, header.rows, gains), (1, 1, vec![32768]));
    assert_eq!(read_block(0, &bytes).unwrap().1, 1);
}

/// Row r has all parts in one band, the r-th, from the first again after the last.
fn slanting(bands: usize, rows: usize) -> Vec<u16> {
    (0..rows).flat_map(|r| (0..bands).map(move |b| if b == r % bands { 32768 } else { 0 })).collect()
}

/// Request L7: at 64 bands a block holds 3 rows, and 1,024 rows take 342 blocks.
#[test]
fn wide_tables() {
    assert_eq!(BLOCK * blocks(1, 64, 1024), 175_104);
    for bands in [17, 63, 64] {
        let rows = slanting(bands, 1024);
        let mut bytes = vec![9; BLOCK * blocks(1, bands, 1024)];
        assert_eq!(write(bands as u32, 1024, &rows, &mut bytes), DONE);
        assert_eq!(read(&bytes, rows.len()).unwrap().1, rows);
    }
    let mut bytes = [9; BLOCK];
    assert_eq!(write(65, 3, &slanting(65, 3), &mut bytes).number, 7);
    assert_eq!(write(64, 3, &slanting(64, 3), &mut bytes), DONE);
    bytes[4] = 65;
    seal(&mut bytes);
    assert_eq!(read(&bytes, 3 * 65).unwrap_err(), Answer { number: 11, place: 0 });
    assert_eq!(read_block(0, &bytes).unwrap_err(), Answer { number: 11, place: 0 });
}
