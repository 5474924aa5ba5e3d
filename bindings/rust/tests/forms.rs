//! Both forms of the stored table: what a move gives, and what reading and moving refuse.

mod random;
mod stored;

use masoritun::table::{BLOCK, Block, moved_len, read, read_block, stored_len, stored_len_in, to_form_1, to_form_2};
use masoritun::{MAX_ROWS, Refusal};
use random::Random;
use stored::{seal, stored};

type Move = fn(&[u8], &mut [u8]) -> Result<(), Refusal>;

/// By the form that they move to.
const MOVES: [(u16, Move); 2] = [(1, to_form_1), (2, to_form_2)];

/// Rows of gains between drawn cuts; every fourth ends in a gain of 0.
fn drawn(random: &mut Random, bands: usize, rows: usize) -> Vec<u16> {
    let mut gains = vec![];
    for row in 0..rows {
        let mut cuts: Vec<usize> = (1..bands).map(|_| (16384.0 * (random.unit() + 1.0)) as usize).chain([0, 32_768]).collect();
        if row % 4 == 0 {
            cuts[0] = 32_768;
        }
        cuts.sort_unstable();
        gains.extend(cuts.windows(2).map(|cut| (cut[1] - cut[0]) as u16));
    }
    gains
}

/// Two bands and more, and rows about the edges of a block in either form.
fn shapes() -> impl Iterator<Item = (usize, usize)> {
    [2, 3, 4, 8, 16, 17, 51, 63, 64].into_iter().flat_map(|bands| {
        let [one, two] = [250 / bands, 250 / (bands - 1)];
        [1, one, one + 1, two, two + 1, 3 * two, MAX_ROWS].map(|rows| (bands, rows))
    })
}

/// From either form to either form, then back; a table that has the form is copied.
#[test]
fn there_and_back() {
    let mut random = Random(8);
    for (bands, rows) in shapes() {
        let gains = drawn(&mut random, bands, rows);
        for (from, back) in MOVES {
            let bytes = stored(from, bands, &gains);
            for (to, there) in MOVES {
                let mut moved = vec![0xee; moved_len(to.into(), &bytes).unwrap()];
                assert_eq!(there(&bytes, &mut moved), Ok(()));
                assert_eq!(moved, stored(to, bands, &gains));
                let mut again = vec![0xee; bytes.len()];
                assert_eq!(back(&moved, &mut again), Ok(()));
                assert_eq!(again, bytes);
            }
        }
    }
}

#[test]
fn form_2_reads_as_the_rows() {
    let mut random = Random(9);
    for (bands, rows) in shapes() {
        let gains = drawn(&mut random, bands, rows);
        let bytes = stored(2, bands, &gains);
        let mut back = vec![0xabcd; gains.len()];
        assert_eq!(read(&bytes, &mut back), Ok((bands as u32, rows as u32)));
        assert_eq!(back, gains);
        let in_a_block = 250 / (bands - 1);
        for (number, block) in bytes.chunks_exact(BLOCK).enumerate() {
            let held = in_a_block.min(rows - number * in_a_block) as u32;
            let want = Block { form: 2, bands: bands as u32, rows: rows as u32, held };
            assert_eq!(read_block(number as u32, block), Ok(want));
        }
    }
}

#[test]
fn lengths() {
    for (bands, rows) in shapes() {
        let gains = drawn(&mut Random(1), bands, rows);
        for form in [1, 2] {
            let bytes = stored(form, bands, &gains);
            assert_eq!(stored_len_in(form.into(), bands as u32, rows as u32), Some(bytes.len()));
            assert_eq!(moved_len(form.into(), &stored(3 - form, bands, &gains)[..8]), Some(bytes.len()));
            assert_eq!(moved_len(form.into(), &bytes[..7]), None);
        }
        assert_eq!(stored_len_in(1, bands as u32, rows as u32), stored_len(bands as u32, rows as u32));
    }
    for (form, bands, rows) in [(0, 3, 3), (3, 3, 3), (2, 0, 3), (2, 1, 3), (1, 0, 3), (2, 65, 3), (2, 3, 0), (2, 3, 1025)] {
        assert_eq!(stored_len_in(form, bands, rows), None);
    }
}

/// Reading and both moves refuse so, and leave what is lent.
fn all_refuse(bytes: &[u8], gains: usize, want: Refusal) {
    let mut lent = vec![0xabcd; gains];
    assert_eq!(read(bytes, &mut lent), Err(want));
    assert!(lent.iter().all(|&g| g == 0xabcd));
    moves_refuse(bytes, want);
}

fn moves_refuse(bytes: &[u8], want: Refusal) {
    for (to, there) in MOVES {
        let mut moved = vec![0xee; moved_len(to.into(), bytes).unwrap_or(BLOCK)];
        assert_eq!(there(bytes, &mut moved), Err(want));
        assert!(moved.iter().all(|&b| b == 0xee));
    }
}

/// Three bands and 130 rows take two blocks in form 2, and block 1 holds five rows.
fn halves() -> Vec<u8> {
    stored(2, 3, &[16384, 16384, 0].repeat(130))
}

/// One byte of a block is another, and its checks are put right.
fn put(bytes: &[u8], number: usize, at: usize, value: u8) -> Vec<u8> {
    let mut damaged = bytes.to_vec();
    let block = &mut damaged[number * BLOCK..][..BLOCK];
    assert_ne!(block[at], value);
    block[at] = value;
    seal(block);
    damaged
}

#[test]
fn damage_under_right_checks() {
    let cases = [
        (0, 0, 0, Refusal::Header(0)),         // form 0
        (0, 0, 3, Refusal::Header(0)),         // form 3
        (0, 1, 1, Refusal::Header(0)),         // form 258
        (0, 0, 1, Refusal::RowTotal(0)),       // form 1, of as many blocks, whose row 0 is three times 16384
        (1, 0, 1, Refusal::Header(1)),         // form unlike block 0
        (0, 4, 1, Refusal::Header(0)),         // one band
        (0, 4, 65, Refusal::Header(0)),        // 65 bands
        (0, 4, 2, Refusal::StoredLength),      // two bands, whose 130 rows take one block
        (1, 4, 1, Refusal::Header(1)),         // bands unlike block 0
        (1, 6, 131, Refusal::Header(1)),       // rows unlike block 0
        (1, 2, 2, Refusal::Header(1)),         // block 1 says 2
        (0, 8, 1, Refusal::RowTotal(0)),       // row 0 passes by one part
        (1, 13, 0xff, Refusal::RowTotal(126)), // a gain of row 126, the second of block 1
        (1, 28, 1, Refusal::Unused(1)),        // the first unused byte
        (1, 507, 9, Refusal::Unused(1)),       // the last one
    ];
    for (number, at, value, want) in cases {
        all_refuse(&put(&halves(), number, at, value), 3 * 130, want);
    }
    // With nothing lent for the gains a move has no 1: block 1 is the first that differs.
    let more = put(&halves(), 0, 6, 131);
    assert_eq!(read(&more, &mut [0; 3 * 130]), Err(Refusal::Length));
    moves_refuse(&more, Refusal::Header(1));
}

#[test]
fn damage_under_wrong_checks() {
    for (at, block) in [(0, 0), (100, 0), (507, 0), (508, 0), (511, 0), (512, 1), (1023, 1)] {
        let mut damaged = halves();
        damaged[at] ^= 1;
        all_refuse(&damaged, 3 * 130, Refusal::Check(block));
    }
    let longer = halves().repeat(2);
    for length in [0, 1, 511, 512, 1023, 1025, 1536, 2048] {
        all_refuse(&longer[..length], 3 * 130, Refusal::StoredLength);
    }
}

/// Fewer stored parts are another row, and a stored row may have all of them; past 32768 is refused, as whole numbers.
#[test]
fn the_last_gain_is_what_is_left() {
    let left = [([0, 0], 32768), ([16384, 16383], 1), ([32768, 0], 0), ([1, 32767], 0)].map(|(row, last)| (row, Ok(last)));
    let past = [[32768, 1], [16385, 16384], [65535, 1], [65535, 65535]].map(|row| (row, Err(Refusal::RowTotal(1))));
    for ([a, b], want) in left.into_iter().chain(past) {
        let bytes = stored(2, 3, &[0, 0, 32768, a, b, 0, 32768, 0, 0]);
        let mut gains = [0xabcd; 9];
        assert_eq!(read(&bytes, &mut gains).map(|_| gains[5]), want);
        assert_eq!(read_block(0, &bytes).map(|block| block.form), want.map(|_| 2));
        assert_eq!(to_form_1(&bytes, &mut [0xee; BLOCK]), want.map(|_| ()));
        assert_eq!(to_form_2(&bytes, &mut [0xee; BLOCK]), want.map(|_| ()));
    }
}

/// A sound block of the other form is refused in a table, and reads by itself.
#[test]
fn mixed_forms() {
    let gains = drawn(&mut Random(3), 3, 300);
    let [one, two] = [1, 2].map(|form| stored(form, 3, &gains));
    for (bytes, other, form) in [(&one, &two, 2), (&two, &one, 1)] {
        let mut mixed = bytes.clone();
        mixed[BLOCK..2 * BLOCK].copy_from_slice(&other[BLOCK..2 * BLOCK]);
        all_refuse(&mixed, gains.len(), Refusal::Header(1));
        let held = if form == 1 { 83 } else { 125 };
        assert_eq!(read_block(1, &mixed[BLOCK..2 * BLOCK]), Ok(Block { form, bands: 3, rows: 300, held }));
    }
}
