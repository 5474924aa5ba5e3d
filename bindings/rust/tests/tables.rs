//! Stored tables: round trips, and what reading and writing refuse.

mod random;
mod stored;

use masoritun::table::{BLOCK, Block, read, read_block, stored_len, write};
use masoritun::{MAX_BANDS, MAX_ROWS, Refusal, split};
use random::Random;
use stored::{seal, stored};

/// Rows of gains, and the bytes that they are stored as.
fn table(random: &mut Random, bands: usize, rows: usize) -> (Vec<u16>, Vec<u8>) {
    let mut gains = vec![0; rows * bands];
    for row in gains.chunks_exact_mut(bands) {
        let levels: Vec<f32> = row.iter().map(|_| random.unit() * 4.0).collect();
        split(&levels, row).unwrap();
    }
    let mut bytes = vec![0xee; stored_len(bands as u32, rows as u32).unwrap()];
    write(bands as u32, rows as u32, &gains, &mut bytes).unwrap();
    (gains, bytes)
}

/// Reading refuses so, and leaves the gains.
fn read_refuses(bytes: &[u8], n: usize, want: Refusal) {
    let mut gains = vec![0xabcd; n];
    assert_eq!(read(bytes, &mut gains), Err(want));
    assert!(gains.iter().all(|&g| g == 0xabcd));
}

#[test]
fn what_was_written_reads_back() {
    let mut random = Random(1);
    for bands in 1..=MAX_BANDS {
        let in_a_block = 250 / bands;
        for rows in [1, in_a_block - 1, in_a_block, in_a_block + 1, 3 * in_a_block, MAX_ROWS] {
            let (gains, bytes) = table(&mut random, bands, rows);
            assert_eq!(bytes, stored(1, bands, &gains));
            let mut back = vec![0; gains.len()];
            assert_eq!(read(&bytes, &mut back), Ok((bands as u32, rows as u32)));
            assert_eq!(back, gains);
            let mut again = vec![0; bytes.len()];
            assert_eq!(write(bands as u32, rows as u32, &back, &mut again), Ok(()));
            assert_eq!(again, bytes);
            for (number, block) in bytes.chunks_exact(BLOCK).enumerate() {
                let held = in_a_block.min(rows - number * in_a_block) as u32;
                let want = Block { form: 1, bands: bands as u32, rows: rows as u32, held };
                assert_eq!(read_block(number as u32, block), Ok(want));
            }
        }
    }
}

/// A block that says so many bands and one row, all of whose parts are in the first band.
fn one_row(bands: u8) -> [u8; BLOCK] {
    let mut block = [0; BLOCK];
    block[..8].copy_from_slice(&[1, 0, 0, 0, bands, 0, 1, 0]);
    block[9] = 0x80;
    seal(&mut block);
    block
}

#[test]
fn the_most_bands() {
    for bands in [17, 63, 64] {
        let mut gains = vec![0xabcd; bands as usize];
        assert_eq!(read(&one_row(bands), &mut gains), Ok((bands as u32, 1)));
        assert_eq!((gains[0], gains[1..].iter().all(|&g| g == 0)), (32768, true));
        let mut again = [0xee; BLOCK];
        assert_eq!(write(bands as u32, 1, &gains, &mut again), Ok(()));
        assert_eq!(again, one_row(bands));
    }
    read_refuses(&one_row(65), 65, Refusal::Header(0));
    assert_eq!(read_block(0, &one_row(65)), Err(Refusal::Header(0)));
    assert_eq!(stored_len(64, 1024), Some(175_104));
    assert_eq!(stored_len(65, 1), None);
}

/// One wrong byte changes a sum or is a sum: number 10 at its block.
#[test]
fn a_wrong_byte_is_found() {
    let (gains, bytes) = table(&mut Random(2), 5, 120);
    for at in (0..bytes.len()).step_by(7).chain(500..520) {
        let mut damaged = bytes.clone();
        damaged[at] ^= 0x41;
        let number = at / BLOCK;
        read_refuses(&damaged, gains.len(), Refusal::Check(number));
        let block = &damaged[number * BLOCK..][..BLOCK];
        assert_eq!(read_block(number as u32, block), Err(Refusal::Check(number)));
    }
}

/// Damage under right checks. Two bands: 125 rows in a block; 130 rows leave 480 unused bytes in block 1, from 28 on.
#[test]
fn damage_under_right_checks() {
    let cases = [
        (0, 0, 3, Refusal::Header(0)),      // form 3
        (0, 0, 2, Refusal::StoredLength),   // form 2, whose 130 rows take one block
        (1, 0, 2, Refusal::Header(1)),      // form unlike block 0
        (0, 2, 1, Refusal::Header(0)),      // block 0 says 1
        (0, 4, 65, Refusal::Header(0)),     // 65 bands
        (0, 4, 64, Refusal::StoredLength),  // 64 bands, whose 130 rows take 44 blocks
        (1, 4, 65, Refusal::Header(1)),     // 65 bands
        (1, 4, 17, Refusal::Header(1)),     // 17 bands, unlike block 0
        (1, 6, 131, Refusal::Header(1)),    // rows unlike block 0
        (1, 7, 0xff, Refusal::Header(1)),   // far too many rows
        (0, 9, 0x7f, Refusal::RowTotal(0)), // a gain of row 0
        (1, 12, 1, Refusal::RowTotal(126)), // a gain of row 126, the second of block 1
        (1, 28, 1, Refusal::Unused(1)),     // the first unused byte
        (1, 507, 9, Refusal::Unused(1)),    // the last one
    ];
    let rows = [[32768, 0]; 130].concat();
    let mut bytes = vec![0; 1024];
    assert_eq!(write(2, 130, &rows, &mut bytes), Ok(()));
    for (number, at, value, want) in cases {
        let mut damaged = bytes.clone();
        let block = &mut damaged[number * BLOCK..][..BLOCK];
        assert_ne!(block[at], value);
        block[at] = value;
        seal(block);
        read_refuses(&damaged, rows.len(), want);
    }
    // By itself a block is judged by its own header: 131 rows are one more than block 1 holds, and that row is all zeros.
    let mut block = bytes[BLOCK..].to_vec();
    block[6] = 131;
    seal(&mut block);
    assert_eq!(read_block(1, &block), Err(Refusal::RowTotal(130)));
    assert_eq!(read_block(0, &bytes[BLOCK..]), Err(Refusal::Header(0)));
    assert_eq!(read_block(65_536, &bytes[..BLOCK]), Err(Refusal::Header(65_536)));
}

#[test]
fn lengths_when_reading() {
    let (gains, bytes) = table(&mut Random(4), 3, 200);
    let n = gains.len();
    for stored in [0, 511, 513, bytes.len() - 1] {
        read_refuses(&bytes[..stored], n, Refusal::StoredLength);
    }
    read_refuses(&bytes[..bytes.len() - BLOCK], n, Refusal::StoredLength);
    read_refuses(&[&bytes[..], &bytes[..BLOCK]].concat(), n, Refusal::StoredLength);
    read_refuses(&bytes, n - 1, Refusal::Length);
    read_refuses(&bytes, n + 1, Refusal::Length);
    for stored in [0, 511, 513] {
        assert_eq!(read_block(0, &bytes[..stored]), Err(Refusal::StoredLength));
    }
}

/// Writing: 7, 1, 9, 8, each where all the later ones apply too.
#[test]
fn writing_refuses_in_order() {
    let wrong = [1; 2 * 3 + 1];
    let cases = [
        (0, 3, 6, 512, Refusal::Count),
        (65, 3, 6, 512, Refusal::Count),
        (2, 0, 6, 512, Refusal::Count),
        (2, 1025, 7, 511, Refusal::Count),
        (2, 3, 7, 511, Refusal::Length),
        (2, 3, 5, 511, Refusal::Length),
        (2, 3, 6, 511, Refusal::StoredLength),
        (2, 3, 6, 1024, Refusal::StoredLength),
        (2, 3, 6, 512, Refusal::RowTotal(0)),
    ];
    for (bands, rows, gains, stored, want) in cases {
        let mut bytes = vec![0xee; stored];
        assert_eq!(write(bands, rows, &wrong[..gains], &mut bytes), Err(want));
        assert!(bytes.iter().all(|&b| b == 0xee));
    }
    // Whole numbers, not modulo 65536: 65535 and 32769 make 98304.
    assert_eq!(write(2, 2, &[32768, 0, 65535, 32769], &mut [0; 512]), Err(Refusal::RowTotal(1)));
}
