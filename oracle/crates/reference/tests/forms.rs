//! Request L8: the two forms of a stored table, and the moves between them.

use reference::Answer;
use reference::answer::DONE;
use reference::table::{BLOCK, blocks, move_to, read, read_block, seal, store};

/// Row r has most of its parts in one band, the r-th, from the first again after the last, and the rest in the next.
fn slanting(bands: usize, rows: usize) -> Vec<u16> {
    let gain = move |r: usize, b: usize| match b {
        b if b == r % bands => 32768 - r as u16,
        b if b == (r + 1) % bands => r as u16,
        _ => 0,
    };
    (0..rows).flat_map(|r| (0..bands).map(move |b| gain(r, b))).collect()
}

fn stored(form: usize, bands: usize, gains: &[u16]) -> Vec<u8> {
    let mut bytes = vec![9; BLOCK * blocks(form, bands, gains.len() / bands)];
    store(form, bands, gains, &mut bytes);
    bytes
}

fn refusal(number: u8, place: usize) -> Answer {
    Answer { number, place }
}

/// Reading and both moves refuse so; the result keeps what it held.
fn refused(bytes: &[u8], gains: usize, number: u8, place: usize) {
    assert_eq!(read(bytes, gains).unwrap_err(), refusal(number, place));
    for form in [1, 2] {
        let mut result = [9; BLOCK];
        assert_eq!(move_to(form, bytes, &mut result), refusal(number, place));
        assert_eq!(result, [9; BLOCK]);
    }
}

/// By hand: [16384, 8192, 8192] and [0, 32768, 0], the last gains left out.
#[test]
fn two_rows_by_hand() {
    let bytes = stored(2, 3, &[16384, 8192, 8192, 0, 32768, 0]);
    assert_eq!(bytes[..16], [2, 0, 0, 0, 3, 0, 2, 0, 0, 0x40, 0, 0x20, 0, 0, 0, 0x80]);
    assert!(bytes[16..508].iter().all(|&b| b == 0));
    // 2 + 3 + 2 + 64 + 32 + 128; 2 + 5 * 3 + 7 * 2 + 10 * 64 + 12 * 32 + 16 * 128
    assert_eq!(bytes[508..], [231, 0, 0x1f, 0x0c]);
    assert_eq!(read(&bytes, 6).unwrap().1, [16384, 8192, 8192, 0, 32768, 0]);
    assert_eq!(read_block(0, &bytes).unwrap().0.form, 2);
}

#[test]
fn blocks_of_both_forms() {
    assert_eq!([1, 2].map(|form| blocks(form, 2, 251)), [3, 2]);
    assert_eq!([1, 2].map(|form| blocks(form, 3, 250)), [4, 2]);
    assert_eq!([1, 2].map(|form| blocks(form, 51, 20)), [5, 4]);
    assert_eq!([1, 2].map(|form| blocks(form, 64, 1024)), [342, 342]);
}

#[test]
fn there_and_back() {
    for bands in 2..=64 {
        for rows in [1, 250 / bands, 250 / (bands - 1), 250 / (bands - 1) + 1, 1024] {
            let gains = slanting(bands, rows);
            let forms = [1, 2].map(|form| stored(form, bands, &gains));
            for from in &forms {
                assert_eq!(read(from, gains.len()).unwrap().1, gains);
                for (form, want) in [1, 2].into_iter().zip(&forms) {
                    let mut result = vec![9; want.len()];
                    assert_eq!(move_to(form, from, &mut result), DONE);
                    assert_eq!(&result, want);
                }
            }
        }
    }
}

/// Block `number` of a form 2 table of 3 bands and 250 rows with a number put in its place, the checks right.
fn with(number: usize, at: usize, value: u16) -> Vec<u8> {
    let mut bytes = stored(2, 3, &slanting(3, 250));
    let block = &mut bytes[number * BLOCK..(number + 1) * BLOCK];
    block[at..at + 2].copy_from_slice(&value.to_le_bytes());
    seal(block);
    bytes
}

#[test]
fn damaged_tables() {
    for form in [0, 3, 258, 514, 65535] {
        refused(&with(0, 0, form), 750, 11, 0);
    }
    refused(&with(0, 4, 1), 750, 11, 0); // one band in form 2
    refused(&with(0, 4, 65), 750, 11, 0);
    refused(&with(0, 4, 2), 750, 9, 0); // two bands: one block
    refused(&with(0, 0, 1), 750, 9, 0); // form 1: four blocks
    refused(&with(1, 0, 1), 750, 11, 1);
    refused(&with(1, 2, 0), 750, 11, 1);
    // row 130 is [0, 32638, 130]: its first gain may be 130 at most
    refused(&with(1, 8 + 4 * 5, 131), 750, 8, 130);
    refused(&with(1, 8 + 4 * 5, 65535), 750, 8, 130);
    for first in [129, 130] {
        assert_eq!(read(&with(1, 8 + 4 * 5, first), 750).unwrap().1[390..393], [first, 32638, 130 - first]);
    }
    let mut wrong = with(1, 2, 1);
    wrong[508] ^= 1;
    refused(&wrong, 750, 10, 0);
    // of 51 bands a row stores 50: five fill a block, and the sixth begins the next
    let mut rows = stored(2, 51, &slanting(51, 6));
    rows[BLOCK + 8 + 100] = 1;
    seal(&mut rows[BLOCK..]);
    refused(&rows, 306, 12, 1);
}

#[test]
fn mixed_forms() {
    let [one, two] = [1, 2].map(|form| stored(form, 3, &slanting(3, 300)));
    for (bytes, other) in [(&one, &two), (&two, &one)] {
        let mut mixed = bytes.clone();
        mixed[BLOCK..2 * BLOCK].copy_from_slice(&other[BLOCK..2 * BLOCK]);
        refused(&mixed, 900, 11, 1);
        assert!(read_block(1, &mixed[BLOCK..2 * BLOCK]).is_ok());
    }
}

/// Reading's refusals come first, then 15, then 9.
#[test]
fn the_order_of_moving() {
    let one = stored(1, 1, &[32768; 251]);
    let mut damaged = one.clone();
    damaged[510] ^= 1;
    assert_eq!(move_to(2, &damaged, &mut [9; 3]), refusal(10, 0));
    assert_eq!(move_to(2, &one, &mut [9; 3]), refusal(15, 0));
    assert_eq!(move_to(2, &one, &mut [9; 2 * BLOCK]), refusal(15, 0));
    assert_eq!(move_to(1, &one, &mut [9; BLOCK]), refusal(9, 0));
    let mut copy = [9; 2 * BLOCK];
    assert_eq!(move_to(1, &one, &mut copy), DONE);
    assert_eq!(copy[..], one);
    assert_eq!(move_to(1, &[], &mut []), refusal(9, 0));
}
