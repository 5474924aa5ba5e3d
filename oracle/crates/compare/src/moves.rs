//! The moves of a table between its forms: sound and damaged tables of both, results of the right and of another length, and there
//! and back.

use crate::damage::{Table, damaged, drawn};
use crate::lent::Lent;
use crate::plan::Mode;
use crate::tally::{Tally, hex};
use cases::Rng;
use reference::table::{BLOCK, blocks, move_to};

unsafe extern "C" {
    fn mst_table_to_form_1(bytes: *const u8, n: usize, result: *mut u8, m: usize) -> u64;
    fn mst_table_to_form_2(bytes: *const u8, n: usize, result: *mut u8, m: usize) -> u64;
}

pub fn compare(mode: Mode, report: &mut dyn FnMut(Tally)) {
    let names = ["table, to form 1", "table, to form 2", "table, there and back"];
    let [mut to_1, mut to_2, mut back] = names.map(Tally::new);
    let mut rng = Rng::new("compare moves");
    for _ in 0..mode.calls(30_000) {
        let table = drawn(&mut rng);
        for _ in 0..3 {
            let damaged = damaged(&mut rng, &table);
            for (form, tally) in [(1, &mut to_1), (2, &mut to_2)] {
                let m = lent_length(&mut rng, form, &table);
                call(tally, &mut rng, form, &damaged, m);
            }
        }
        there_and_back(&mut back, &mut rng, &table);
    }
    [to_1, to_2, back].into_iter().for_each(report);
}

/// The length of the table in the form, mostly.
fn lent_length(rng: &mut Rng, form: usize, table: &Table) -> usize {
    if table.bands < form {
        return rng.pick(&[0, BLOCK, table.bytes.len()]);
    }
    let m = BLOCK * blocks(form, table.bands, table.rows);
    if rng.one_in(8) { rng.pick(&[0, m - 1, m + 1, m - BLOCK, m + BLOCK, table.bytes.len()]) } else { m }
}

/// What the result holds after the library's move, where it is done.
fn call(tally: &mut Tally, rng: &mut Rng, form: usize, bytes: &[u8], m: usize) -> Option<Vec<u8>> {
    let old: Vec<u8> = (0..m).map(|_| rng.word() as u8).collect();
    let (lent, mut got, mut want) = (Lent::new(bytes), Lent::new(&old), old.clone());
    let ours = if form == 1 { mst_table_to_form_1 } else { mst_table_to_form_2 };
    // SAFETY: two lent slices of their own.
    let word = unsafe { ours(lent.ptr(), lent.len(), got.ptr_mut(), got.len()) };
    let answer = move_to(form, bytes, &mut want);
    let about = || format!("to form {form}, {} bytes from {} into {m}", bytes.len(), hex(&bytes[..bytes.len().min(24)]));
    tally.answer(word, answer, &about);
    tally.lent("result", &got, &want, &about);
    tally.lent("bytes", &lent, bytes, &about);
    (word == 0).then(|| got.slice().to_vec())
}

/// A sound table of two bands or more, to the other form and from there to its own.
fn there_and_back(tally: &mut Tally, rng: &mut Rng, table: &Table) {
    if table.bands == 1 {
        return;
    }
    let other = 3 - table.form;
    let m = BLOCK * blocks(other, table.bands, table.rows);
    let moved = call(tally, rng, other, &table.bytes, m);
    let again = moved.and_then(|moved| call(tally, rng, table.form, &moved, table.bytes.len()));
    let about = || format!("{} bands and {} rows of form {}, there and back", table.bands, table.rows, table.form);
    tally.same("bytes", &again.unwrap_or_default(), &table.bytes, &about);
}
