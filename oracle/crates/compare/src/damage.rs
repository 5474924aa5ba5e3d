//! Stored tables of both forms, and every kind of damage to them.

use cases::Rng;
use reference::split::{BAND_LIMIT, PARTS, gains};
use reference::table::{BLOCK, blocks, rows_a_block, seal, store, width};

/// A sound table.
pub struct Table {
    pub form: usize,
    pub bands: usize,
    pub rows: usize,
    pub gains: Vec<u16>,
    pub bytes: Vec<u8>,
}

impl Table {
    /// Its bytes in a form that it can have.
    pub fn stored(&self, form: usize) -> Vec<u8> {
        let mut bytes = vec![0; BLOCK * blocks(form, self.bands, self.rows)];
        store(form, self.bands, &self.gains, &mut bytes);
        bytes
    }
}

/// A table of either form, one of one band being of form 1. A row's last gain may be 0.
pub fn drawn(rng: &mut Rng) -> Table {
    let (form, bands, rows) = sizes(rng);
    let mut gains: Vec<u16> =
        (0..rows).flat_map(|_| gains(&text::softmax(false, &rng.list(bands, |r| r.unit() * 5.0)))).collect();
    for row in gains.chunks_mut(bands) {
        if bands > 1 && rng.one_in(8) {
            row[0] += row[bands - 1];
            row[bands - 1] = 0;
        }
    }
    let mut table = Table { form, bands, rows, gains, bytes: vec![] };
    table.bytes = table.stored(form);
    table
}

/// Mostly a few rows; now and then up to the limit, or about a block's edge, or over 256 blocks, whose numbers need both bytes.
fn sizes(rng: &mut Rng) -> (usize, usize, usize) {
    let form = 1 + rng.below(2);
    if rng.one_in(128) {
        return (form, BAND_LIMIT - rng.below(2), 1024 - rng.below(256));
    }
    let bands = if rng.one_in(4) { 1 + rng.below(4) } else { 1 + rng.below(BAND_LIMIT) };
    let form = form.min(bands);
    let rows = match rng.below(64) {
        0 => 1024,
        1 => 1 + rng.below(1024),
        2..20 => (rows_a_block(form, bands) * (1 + rng.below(3)) + rng.below(3)).saturating_sub(1).clamp(1, 1024),
        _ => 1 + rng.below(20),
    };
    (form, bands, rows)
}

/// None to three kinds of damage, with the checks put right again or not.
pub fn damaged(rng: &mut Rng, table: &Table) -> Vec<u8> {
    let mut bytes = table.bytes.clone();
    for _ in 0..rng.below(4) {
        let count = bytes.len() / BLOCK;
        if count == 0 {
            break;
        }
        let k = rng.below(count);
        match rng.below(16) {
            0 => bytes.truncate(rng.pick(&[0, 1, 511, bytes.len() - 1, bytes.len() - BLOCK])),
            1 => bytes.extend_from_within(..BLOCK),
            2 => bytes.copy_within(k * BLOCK..(k + 1) * BLOCK, rng.below(count) * BLOCK),
            3 => mix_forms(rng, table, &mut bytes),
            4 => bytes.chunks_exact_mut(BLOCK).for_each(turn_form),
            kind => damage_block(rng, table, kind, &mut bytes[k * BLOCK..(k + 1) * BLOCK]),
        }
        if !rng.one_in(4) {
            bytes.chunks_exact_mut(BLOCK).for_each(seal);
        }
    }
    bytes
}

fn damage_block(rng: &mut Rng, table: &Table, kind: usize, block: &mut [u8]) {
    let at = match rng.below(4) {
        0 => rng.below(8),
        1 => 8 + rng.below(2 * table.bands * 3),
        2 => 508 - 1 - rng.below(20),
        _ => rng.below(BLOCK),
    };
    match kind {
        5 => turn_form(block),
        6 => block[..2].copy_from_slice(&rng.pick(&[0u16, 3, 257, 258, 513, 514, 65535]).to_le_bytes()),
        7 => fill_row(rng, table, block),
        8 => one_band(block),
        9 => move_a_part(rng, block),
        10 => block[at] = rng.pick(&[0, 1, 2, 4, 16, 17, 63, 64, 65, 128, 255]),
        _ => block[at] = block[at].wrapping_add(rng.pick(&[1, 255, 128])),
    }
}

/// Form 1 says 2, and form 2 says 1.
fn turn_form(block: &mut [u8]) {
    block[0] = 3u8.wrapping_sub(block[0]);
}

/// One band in form 2.
fn one_band(block: &mut [u8]) {
    block[0] = 2;
    block[4] = 1;
}

/// A block of the same rows in the other form, at its place.
fn mix_forms(rng: &mut Rng, table: &Table, bytes: &mut [u8]) {
    if table.bands > 1 {
        let other = table.stored(3 - table.form);
        let k = rng.below(other.len().min(bytes.len()) / BLOCK);
        bytes[k * BLOCK..(k + 1) * BLOCK].copy_from_slice(&other[k * BLOCK..(k + 1) * BLOCK]);
    }
}

/// A stored gain with which its row has all parts, or passes them by one or by many.
fn fill_row(rng: &mut Rng, table: &Table, block: &mut [u8]) {
    let width = width(table.form, table.bands);
    let row = 8 + 2 * width * rng.below(rows_a_block(table.form, table.bands).min(table.rows));
    let at = row + 2 * rng.below(width);
    let gain = |at: usize| u16::from_le_bytes([block[at], block[at + 1]]) as u64;
    let others = (row..row + 2 * width).step_by(2).filter(|&i| i != at).map(gain).sum::<u64>();
    let whole = PARTS.saturating_sub(others) + rng.pick(&[0, 0, 1, 1, 2, 32768, 65535]);
    block[at..at + 2].copy_from_slice(&(whole.min(65535) as u16).to_le_bytes());
}

/// One part from a stored gain to the next: a row may keep its total.
fn move_a_part(rng: &mut Rng, block: &mut [u8]) {
    let at = 8 + 2 * rng.below(40);
    block[at] = block[at].wrapping_add(1);
    block[at + 2] = block[at + 2].wrapping_sub(1);
}
