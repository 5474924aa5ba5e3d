//! The stored table: blocks of 512 bytes, numbers little-endian. Form 1 stores every gain of a row; form 2, of request L8, leaves the
//! last one out, which is what the others leave of 32768.

use crate::answer::{Answer, DONE, Test, at_first, judged, when};
use crate::split::{BAND_LIMIT, PARTS};

pub const BLOCK: usize = 512;
pub const ROW_LIMIT: usize = 1024;
const CHECKED: usize = 508;

#[derive(Clone, Copy, PartialEq, Eq, Debug)]
pub struct Header {
    pub form: usize,
    pub number: usize,
    pub bands: usize,
    pub rows: usize,
}

impl Header {
    fn sound(self) -> bool {
        in_limits(self.form, self.bands, self.rows)
    }
    fn rows_a_block(self) -> usize {
        rows_a_block(self.form, self.bands)
    }
    /// The rows that block `number` holds.
    fn held(self) -> usize {
        self.rows_a_block().min(self.rows - self.number * self.rows_a_block())
    }
}

/// The gains of a row that are stored.
pub fn width(form: usize, bands: usize) -> usize {
    if form == 2 { bands - 1 } else { bands }
}

pub fn rows_a_block(form: usize, bands: usize) -> usize {
    250 / width(form, bands)
}

pub fn blocks(form: usize, bands: usize, rows: usize) -> usize {
    rows.div_ceil(rows_a_block(form, bands))
}

fn in_limits(form: usize, bands: usize, rows: usize) -> bool {
    let least = match form {
        1 => 1,
        2 => 2,
        _ => return false,
    };
    (least..=BAND_LIMIT).contains(&bands) && (1..=ROW_LIMIT).contains(&rows)
}

fn pair(block: &[u8], at: usize) -> usize {
    block[at] as usize + 256 * block[at + 1] as usize
}

fn put(block: &mut [u8], at: usize, value: usize) {
    block[at] = (value % 256) as u8;
    block[at + 1] = (value / 256 % 256) as u8;
}

/// The two checks of a block.
pub fn checks(block: &[u8]) -> [usize; 2] {
    let plain: usize = block[..CHECKED].iter().map(|&b| b as usize).sum();
    let weighed: usize = block[..CHECKED].iter().enumerate().map(|(i, &b)| (i + 1) * b as usize).sum();
    [plain % 65536, weighed % 65536]
}

/// The checks put right.
pub fn seal(block: &mut [u8]) {
    let [plain, weighed] = checks(block);
    put(block, CHECKED, plain);
    put(block, CHECKED + 2, weighed);
}

pub fn header(block: &[u8]) -> Header {
    Header { form: pair(block, 0), number: pair(block, 2), bands: pair(block, 4), rows: pair(block, 6) }
}

/// What the stored gains of a row leave of 32768; none where they pass it.
fn left(stored: &[u16]) -> Option<u16> {
    let total: u64 = stored.iter().map(|&g| g as u64).sum();
    Some(PARTS.checked_sub(total)? as u16)
}

fn row_total_wrong(form: usize, stored: &[u16]) -> bool {
    match left(stored) {
        None => true,
        Some(left) => form == 1 && left > 0,
    }
}

/// The gains that a block with a sound header stores, in order.
fn stored_in(block: &[u8], h: Header) -> Vec<u16> {
    (0..h.held() * width(h.form, h.bands)).map(|i| pair(block, 8 + 2 * i) as u16).collect()
}

/// All gains of its rows, where none is wrong.
fn gains_of(block: &[u8], h: Header) -> Vec<u16> {
    let stored = stored_in(block, h);
    if h.form == 1 {
        return stored;
    }
    let mut gains = Vec::with_capacity(h.held() * h.bands);
    for row in stored.chunks(width(h.form, h.bands)) {
        gains.extend_from_slice(row);
        gains.extend(left(row));
    }
    gains
}

fn check_wrong(block: &[u8], place: usize) -> Test {
    at(checks(block) != [pair(block, CHECKED), pair(block, CHECKED + 2)], 10, place)
}

fn at(applies: bool, number: u8, place: usize) -> Test {
    applies.then_some(Answer { number, place })
}

/// A row's total, then an unused byte, in a block with a sound header.
fn body_wrong(block: &[u8], h: Header) -> Test {
    let stored = stored_in(block, h);
    let row = stored.chunks(width(h.form, h.bands)).position(|row| row_total_wrong(h.form, row));
    let unused = &block[8 + 2 * stored.len()..CHECKED];
    match row {
        Some(r) => at(true, 8, h.number * h.rows_a_block() + r),
        None => at(unused.iter().any(|&b| b != 0), 12, h.number),
    }
}

pub fn write(bands: u32, rows: u32, gains: &[u16], bytes: &mut [u8]) -> Answer {
    let (b, n) = (bands as usize, rows as usize);
    if !in_limits(1, b, n) {
        return judged(&[when(true, 7)]);
    }
    let answer = judged(&[
        when(gains.len() != n * b, 1),
        when(bytes.len() != BLOCK * blocks(1, b, n), 9),
        at_first(n, 8, |r| gains.len() == n * b && row_total_wrong(1, &gains[r * b..(r + 1) * b])),
    ]);
    if answer == DONE {
        store(1, b, gains, bytes);
    }
    answer
}

/// Stores whole rows in a form; `bytes` has the length of the table.
pub fn store(form: usize, bands: usize, gains: &[u16], bytes: &mut [u8]) {
    let per_block = bands * rows_a_block(form, bands);
    for (k, block) in bytes.chunks_mut(BLOCK).enumerate() {
        let h = Header { form, number: k, bands, rows: gains.len() / bands };
        store_block(h, &gains[k * per_block..gains.len().min((k + 1) * per_block)], block);
    }
}

fn store_block(h: Header, gains: &[u16], block: &mut [u8]) {
    block.fill(0);
    for (i, value) in [h.form, h.number, h.bands, h.rows].into_iter().enumerate() {
        put(block, 2 * i, value);
    }
    let room = block[8..CHECKED].chunks_mut(2 * width(h.form, h.bands));
    for (row, room) in gains.chunks(h.bands).zip(room) {
        // a row may be longer than its room: form 2's last gain
        for (g, pair) in row.iter().zip(room.chunks_exact_mut(2)) {
            pair.copy_from_slice(&g.to_le_bytes());
        }
    }
    seal(block);
}

/// The header and gains of a whole table of either form, `lent` being the length of the gains lent.
pub fn read(bytes: &[u8], lent: usize) -> Result<(Header, Vec<u16>), Answer> {
    read_where(bytes, |needed| needed == lent)
}

/// `fits` of how many gains the table has: whether reading has room for them.
fn read_where(bytes: &[u8], fits: impl Fn(usize) -> bool) -> Result<(Header, Vec<u16>), Answer> {
    if bytes.is_empty() || !bytes.len().is_multiple_of(BLOCK) {
        return Err(Answer { number: 9, place: 0 });
    }
    let first = header(bytes);
    let mut gains = vec![];
    for (k, block) in bytes.chunks(BLOCK).enumerate() {
        let wrong = check_wrong(block, k)
            .or_else(|| at(!first.sound() || header(block) != Header { number: k, ..first }, 11, k))
            .or_else(|| when(bytes.len() != BLOCK * blocks(first.form, first.bands, first.rows), 9))
            .or_else(|| when(!fits(first.rows * first.bands), 1))
            .or_else(|| body_wrong(block, header(block)));
        if let Some(refusal) = wrong {
            return Err(refusal);
        }
        gains.extend(gains_of(block, header(block)));
    }
    Ok((first, gains))
}

/// One block of either form by itself: its header and the rows it holds.
pub fn read_block(number: u32, bytes: &[u8]) -> Result<(Header, usize), Answer> {
    let number = number as usize;
    if bytes.len() != BLOCK {
        return Err(Answer { number: 9, place: 0 });
    }
    let h = header(bytes);
    let wrong = check_wrong(bytes, number)
        .or_else(|| at(!h.sound() || h.number != number || number >= blocks(h.form, h.bands, h.rows), 11, number))
        .or_else(|| body_wrong(bytes, h));
    match wrong {
        Some(refusal) => Err(refusal),
        None => Ok((h, h.held())),
    }
}

/// The move to a form: reading's refusals with nothing lent for the gains, then 15, then 9.
pub fn move_to(form: usize, bytes: &[u8], result: &mut [u8]) -> Answer {
    let (h, gains) = match read_where(bytes, |_| true) {
        Ok(table) => table,
        Err(refusal) => return refusal,
    };
    if form == 2 && h.bands == 1 {
        return Answer { number: 15, place: 0 };
    }
    if result.len() != BLOCK * blocks(form, h.bands, h.rows) {
        return Answer { number: 9, place: 0 };
    }
    if h.form == form {
        result.copy_from_slice(bytes);
    } else {
        store(form, h.bands, &gains, result);
    }
    DONE
}
