//! The calls that the Rust lacks, split and table, against the reference.

use crate::job::{Job, ROWS};
use crate::kernels::{Call, Kernel, USUAL, kernel};
use crate::library::*;
use reference::table::{move_to, read, write};

const SPLIT_LIMIT: Option<f64> = Some(1.5);

fn split(name: &'static str, n: usize, limit: Option<f64>) -> Kernel {
    // SAFETY: here and below, the job's buffers are as long as it says and do not overlap.
    let ours: Call = |j| _ = unsafe { mst_split(j.src, j.n, j.dst.cast(), j.n) };
    let rust: Call = |j| _ = reference::split::split(j.src(), j.out(j.n));
    Kernel { only: Some(n), ..kernel(name, (-5.0, 5.0), limit, ours, rust) }
}

fn table(name: &'static str, bands: usize, ours: Call, rust: Call) -> Kernel {
    Kernel { only: Some(bands * ROWS), ..kernel(name, USUAL, None, ours, rust) }
}

fn our_writing(j: &Job) {
    let t = j.table();
    _ = unsafe { mst_table_write(t.bands as u32, ROWS as u32, t.gains.as_ptr(), t.gains.len(), j.dst, t.bytes(1).len()) };
}

fn their_writing(j: &Job) {
    let t = j.table();
    _ = write(t.bands as u32, ROWS as u32, &t.gains, j.out(t.bytes(1).len()));
}

fn our_reading<const FORM: usize>(j: &Job) {
    let (bytes, [mut bands, mut rows]) = (j.table().bytes(FORM), [0; 2]);
    _ = unsafe { mst_table_read(bytes.as_ptr(), bytes.len(), j.dst.cast(), j.n, &mut bands, &mut rows) };
}

fn their_reading<const FORM: usize>(j: &Job) {
    if let Ok((_, gains)) = read(j.table().bytes(FORM), j.n) {
        j.out(j.n).copy_from_slice(&gains);
    }
}

/// From the other form.
fn our_move<const FORM: usize>(j: &Job) {
    let (bytes, m) = (j.table().bytes(3 - FORM), j.table().bytes(FORM).len());
    let ours = if FORM == 1 { mst_table_to_form_1 } else { mst_table_to_form_2 };
    _ = unsafe { ours(bytes.as_ptr(), bytes.len(), j.dst, m) };
}

fn their_move<const FORM: usize>(j: &Job) {
    _ = move_to(FORM, j.table().bytes(3 - FORM), j.out(j.table().bytes(FORM).len()));
}

/// Reading form 1 and form 2, and moving to form 2 and to form 1.
fn both_forms(bands: usize, [read_1, read_2, to_2, to_1]: [&'static str; 4]) -> [Kernel; 4] {
    [
        table(read_1, bands, our_reading::<1>, their_reading::<1>),
        table(read_2, bands, our_reading::<2>, their_reading::<2>),
        table(to_2, bands, our_move::<2>, their_move::<2>),
        table(to_1, bands, our_move::<1>, their_move::<1>),
    ]
}

pub fn calls() -> Vec<Kernel> {
    let mut calls = vec![
        split("split of 3", 3, None),
        split("split of 16", 16, SPLIT_LIMIT),
        table("table write", 16, our_writing, their_writing),
    ];
    calls.extend(both_forms(16, ["table read", "read, form 2", "to form 2", "to form 1"]));
    calls.extend(both_forms(8, ["8 bands: read", "8 bands: read, form 2", "8 bands: to form 2", "8 bands: to form 1"]));
    calls.extend(both_forms(3, ["3 bands: read", "3 bands: read, form 2", "3 bands: to form 2", "3 bands: to form 1"]));
    calls
}
