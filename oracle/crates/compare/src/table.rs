//! The stored table: writing, reading a table and reading one block, with every kind of damage.

use crate::damage::{Table, damaged, drawn};
use crate::lent::Lent;
use crate::plan::{Mode, other_length};
use crate::tally::{Tally, hex};
use cases::Rng;
use reference::Answer;
use reference::answer::DONE;
use reference::split::BAND_LIMIT;
use reference::table::{BLOCK, blocks, read, read_block, write};

unsafe extern "C" {
    fn mst_table_write(bands: u32, rows: u32, gains: *const u16, n: usize, bytes: *mut u8, m: usize) -> u64;
    fn mst_table_read(bytes: *const u8, n: usize, gains: *mut u16, m: usize, bands: *mut u32, rows: *mut u32) -> u64;
    fn mst_table_read_block(
        number: u32,
        bytes: *const u8,
        n: usize,
        form: *mut u32,
        bands: *mut u32,
        rows: *mut u32,
        held: *mut u32,
    ) -> u64;
}

pub fn compare(mode: Mode, report: &mut dyn FnMut(Tally)) {
    let names = ["table, writing", "table, reading", "table, one block"];
    let [mut writing, mut reading, mut one] = names.map(Tally::new);
    let mut rng = Rng::new("compare table");
    for _ in 0..mode.calls(30_000) {
        let table = drawn(&mut rng);
        write_call(&mut writing, &mut rng, &table);
        let n = table.gains.len();
        for _ in 0..4 {
            let damaged = damaged(&mut rng, &table);
            let lent = if rng.one_in(8) { other_length(&mut rng, n) } else { n };
            read_call(&mut reading, &mut rng, &damaged, lent);
            block_call(&mut one, &mut rng, &damaged);
        }
        read_call(&mut reading, &mut rng, &table.bytes, n);
    }
    [writing, reading, one].into_iter().for_each(report);
}

fn write_call(tally: &mut Tally, rng: &mut Rng, table: &Table) {
    let mut m = BLOCK * blocks(1, table.bands, table.rows);
    let (mut bands, mut rows, mut table) = (table.bands as u32, table.rows as u32, table.gains.clone());
    if rng.one_in(2) {
        match rng.below(5) {
            0 => bands = rng.pick(&[0, BAND_LIMIT as u32 + 1, 65536, 65537, u32::MAX, bands + 1]),
            1 => rows = rng.pick(&[0, 1025, 65536, 65537, u32::MAX, rows + 1]),
            2 => m = rng.pick(&[0, m - BLOCK, m + BLOCK, m + 1, m - 1]),
            3 => table.truncate(table.len() - 1),
            _ => {}
        }
        for _ in 0..rng.below(3) {
            let at = rng.below(table.len().max(1));
            if let Some(g) = table.get_mut(at) {
                *g = rng.pick(&[g.wrapping_add(1), g.wrapping_sub(1), 65535, 0]);
            }
        }
    }
    let old: Vec<u8> = (0..m).map(|_| rng.word() as u8).collect();
    let (lent, mut got, mut want) = (Lent::new(&table), Lent::new(&old), old.clone());
    // SAFETY: two lent slices of their own.
    let word = unsafe { mst_table_write(bands, rows, lent.ptr(), lent.len(), got.ptr_mut(), got.len()) };
    let answer = write(bands, rows, &table, &mut want);
    let about = || format!("writing {bands} bands, {rows} rows of {} into {m} bytes", hex(&table));
    tally.answer(word, answer, &about);
    tally.lent("bytes", &got, &want, &about);
    tally.lent("gains", &lent, &table, &about);
}

fn read_call(tally: &mut Tally, rng: &mut Rng, bytes: &[u8], m: usize) {
    let old: Vec<u16> = (0..m).map(|_| rng.word() as u16).collect();
    let sizes = [rng.word(), rng.word()];
    let (lent, mut got) = (Lent::new(bytes), Lent::new(&old));
    let [mut bands, mut rows] = sizes.map(|x| Lent::new(&[x]));
    // SAFETY: lent slices and numbers of their own.
    let word = unsafe { mst_table_read(lent.ptr(), lent.len(), got.ptr_mut(), got.len(), bands.ptr_mut(), rows.ptr_mut()) };
    let (answer, [want_bands, want_rows], want) = match read(bytes, m) {
        Ok((h, gains)) => (DONE, [h.bands as u32, h.rows as u32], gains),
        Err(refused) => (refused, sizes, old),
    };
    let about = || format!("reading {} bytes from {} into {m} gains", bytes.len(), hex(&bytes[..bytes.len().min(24)]));
    tally.answer(word, answer, &about);
    tally.lent("gains", &got, &want, &about);
    tally.lent("bands", &bands, &[want_bands], &about);
    tally.lent("rows", &rows, &[want_rows], &about);
    tally.lent("bytes", &lent, bytes, &about);
}

/// One of the blocks, mostly by its own number.
fn block_call(tally: &mut Tally, rng: &mut Rng, bytes: &[u8]) {
    let k = rng.below((bytes.len() / BLOCK).max(1));
    let length = if rng.one_in(16) { rng.pick(&[0, 511, 513, 1024]) } else { BLOCK };
    let bytes = &bytes[(k * BLOCK).min(bytes.len())..(k * BLOCK + length).min(bytes.len())];
    let own = k as u32;
    let others = [0, own + 1, own ^ 256, 65535, 65536, 65536 + own, u32::MAX];
    let number = if rng.one_in(8) { rng.pick(&others) } else { own };
    let old = [0; 4].map(|_| rng.word());
    let lent = Lent::new(bytes);
    let [mut form, mut bands, mut rows, mut held] = old.map(|x| Lent::new(&[x]));
    // SAFETY: a lent slice and lent numbers of their own.
    let word = unsafe {
        let numbers = [&mut form, &mut bands, &mut rows, &mut held].map(Lent::ptr_mut);
        mst_table_read_block(number, lent.ptr(), lent.len(), numbers[0], numbers[1], numbers[2], numbers[3])
    };
    let (answer, want): (Answer, [u32; 4]) = match read_block(number, bytes) {
        Ok((h, held)) => (DONE, [h.form, h.bands, h.rows, held].map(|x| x as u32)),
        Err(refused) => (refused, old),
    };
    let about = || format!("block {number}, {} bytes from {}", bytes.len(), hex(&bytes[..bytes.len().min(24)]));
    tally.answer(word, answer, &about);
    for (name, (got, want)) in ["form", "bands", "rows", "held"].iter().zip([form, bands, rows, held].iter().zip(want)) {
        tally.lent(name, got, &[want], &about);
    }
    tally.lent("bytes", &lent, bytes, &about);
}
