//! The stored table: rows of gains in blocks of 512 bytes with checks.
//!
//! A table has 1 to 64 bands and 1 to 1,024 rows; each row adds up to 32768. Form 1 stores every gain. Form 2, of 2 to 64 bands,
//! leaves each row's last one out, and the reader works it out. A block holds floor(250 / stored gains of a row) rows, the last one
//! what is left; all blocks of a table have one form. [`write()`] writes form 1, and [`to_form_2`] and [`to_form_1`] move a table.
//! What was written reads back, what reads is written again as the same bytes, and a move there and back gives the same bytes.

use crate::ffi;
use crate::guard::guarded;
use crate::refusal::Refusal;
use crate::{MAX_BANDS, MAX_ROWS};

/// The bytes of a block.
pub const BLOCK: usize = 512;

/// The bytes that a table takes in form 1; none where [`write()`] would refuse its bands or rows with 7.
///
/// ```
/// use masoritun::table::stored_len;
///
/// assert_eq!(stored_len(1, 1), Some(512));
/// assert_eq!(stored_len(16, 1024), Some(35_328)); // 15 rows in a block: ceil(1024 / 15) blocks
/// assert_eq!(stored_len(64, 1024), Some(175_104)); // the largest table: 3 rows in a block, 342 blocks
/// assert_eq!(stored_len(65, 1), None);
/// ```
pub const fn stored_len(bands: u32, rows: u32) -> Option<usize> {
    stored_len_in(1, bands, rows)
}

/// The bytes that a table takes in a form; none where there is no such table.
///
/// ```
/// use masoritun::table::stored_len_in;
///
/// assert_eq!(stored_len_in(1, 3, 250), Some(2048)); // 83 rows in a block
/// assert_eq!(stored_len_in(2, 3, 250), Some(1024)); // 125 rows in a block
/// assert_eq!(stored_len_in(2, 1, 250), None); // one band has no form 2
/// assert_eq!(stored_len_in(3, 3, 250), None);
/// ```
pub const fn stored_len_in(form: u32, bands: u32, rows: u32) -> Option<usize> {
    let stored = match form {
        1 => bands,
        2 => bands.saturating_sub(1),
        _ => 0,
    };
    if stored < 1 || bands > MAX_BANDS as u32 || rows < 1 || rows > MAX_ROWS as u32 {
        return None;
    }
    Some(rows.div_ceil(250 / stored) as usize * BLOCK)
}

/// The bytes that the table in `bytes` takes in a form, by the bands and rows of its first header, which is not judged here; none
/// where `bytes` has no header or there is no such table.
///
/// ```
/// use masoritun::table::{self, moved_len};
///
/// let mut bytes = [0; 2048];
/// table::write(3, 250, &[16384, 0, 16384].repeat(250), &mut bytes)?;
/// assert_eq!(moved_len(2, &bytes), Some(1024));
/// assert_eq!(moved_len(1, &bytes), Some(2048)); // a copy
/// assert_eq!(moved_len(2, &[]), None);
/// # Ok::<(), masoritun::Refusal>(())
/// ```
pub fn moved_len(form: u32, bytes: &[u8]) -> Option<usize> {
    let (bands, rows) = header(bytes)?;
    stored_len_in(form, bands, rows)
}

/// The gains that [`read`] needs for the table in `bytes`: rows times bands, by its first header, which is not judged here; none
/// where `bytes` has no header or there is no such table.
///
/// ```
/// use masoritun::table::{self, gain_count};
///
/// let mut bytes = [0; 512];
/// table::write(2, 3, &[16384, 16384, 32768, 0, 0, 32768], &mut bytes)?;
/// let mut gains = vec![0; gain_count(&bytes).unwrap()];
/// assert_eq!(table::read(&bytes, &mut gains)?, (2, 3));
/// assert_eq!(gain_count(&[]), None);
/// # Ok::<(), masoritun::Refusal>(())
/// ```
pub fn gain_count(bytes: &[u8]) -> Option<usize> {
    let (bands, rows) = header(bytes)?;
    stored_len(bands, rows)?;
    Some(bands as usize * rows as usize)
}

/// The bands and rows of the first header, which is not judged.
fn header(bytes: &[u8]) -> Option<(u32, u32)> {
    let &[_, _, _, _, b, c, r, s, ..] = bytes else { return None };
    Some((u16::from_le_bytes([b, c]).into(), u16::from_le_bytes([r, s]).into()))
}

/// Writes `rows` rows of `bands` gains, row after row, as a stored table of form 1.
///
/// # Errors
///
/// The first that holds, in this order; `bytes` then stays as it was.
///
/// - 7 [`Refusal::Count`]: `bands` outside 1..64, or `rows` outside 1..1,024.
/// - 1 [`Refusal::Length`]: `gains` is not `rows` times `bands` long.
/// - 9 [`Refusal::StoredLength`]: `bytes` is not as long as the table, [`stored_len`].
/// - 8 [`Refusal::RowTotal`]: a row does not add up to 32768; the place is the first such.
///
/// # Example
///
/// ```
/// let mut bytes = [0; 512];
/// masoritun::table::write(1, 1, &[32768], &mut bytes)?;
/// // Document 01's worked case.
/// assert_eq!(bytes[..10], [0x01, 0, 0, 0, 0x01, 0, 0x01, 0, 0, 0x80]);
/// assert_eq!(bytes[10..508], [0; 498]);
/// assert_eq!(bytes[508..], [0x83, 0, 0x0d, 0x05]);
/// # Ok::<(), masoritun::Refusal>(())
/// ```
pub fn write(bands: u32, rows: u32, gains: &[u16], bytes: &mut [u8]) -> Result<(), Refusal> {
    // SAFETY: two slices with their lengths; `bytes` is borrowed alone, so they do not overlap.
    guarded(|| unsafe { ffi::mst_table_write(bands, rows, gains.as_ptr(), gains.len(), bytes.as_mut_ptr(), bytes.len()) })
}

/// Reads a stored table of either form into `gains`, row after row, and tells its bands and rows.
///
/// How many gains are needed is told by [`gain_count`].
///
/// # Errors
///
/// The first that holds, in this order; `gains` then stays as it was.
///
/// - 9 [`Refusal::StoredLength`]: `bytes` is empty or no multiple of 512 long.
/// - Then blocks upward, in each:
///   - 10 [`Refusal::Check`]: a check is wrong; the place is the block.
///   - 11 [`Refusal::Header`]: form, block number, bands or rows wrong, or unlike block 0; one band in form 2; the place is the block.
///   - in block 0, 9: `bytes` is not as long as the table; and 1 [`Refusal::Length`]: `gains` is not rows times bands long.
///   - 8 [`Refusal::RowTotal`]: a row does not add up to 32768, or in form 2 its stored gains pass that; the place is the row, from 0
///     through the table.
///   - 12 [`Refusal::Unused`]: an unused byte is not zero; the place is the block.
///
/// # Example
///
/// ```
/// use masoritun::table;
///
/// let rows = [16384, 16384, 32768, 0, 0, 32768];
/// let mut bytes = [0; 512];
/// table::write(2, 3, &rows, &mut bytes)?;
/// let mut gains = [0; 6];
/// assert_eq!(table::read(&bytes, &mut gains)?, (2, 3));
/// assert_eq!(gains, rows); // what was written reads back
/// # Ok::<(), masoritun::Refusal>(())
/// ```
pub fn read(bytes: &[u8], gains: &mut [u16]) -> Result<(u32, u32), Refusal> {
    let (mut bands, mut rows) = (0, 0);
    let (into, m) = (gains.as_mut_ptr(), gains.len());
    // SAFETY: two slices with their lengths, and two numbers of our own; `gains` is borrowed alone, so nothing overlaps.
    guarded(|| unsafe { ffi::mst_table_read(bytes.as_ptr(), bytes.len(), into, m, &mut bands, &mut rows) })?;
    Ok((bands, rows))
}

/// Moves a table to form 1: the same rows. One that has that form is copied.
///
/// # Errors
///
/// The first that holds, in this order; `result` then stays as it was.
///
/// - What [`read`] refuses, but for 1: 9, then in each block 10, 11, in block 0 also 9, then 8, then 12.
/// - 9 [`Refusal::StoredLength`]: `result` is not as long as the table in that form, [`moved_len`].
///
/// # Example
///
/// ```
/// use masoritun::table;
///
/// let mut bytes = [0; 2048];
/// table::write(3, 250, &[16384, 0, 16384].repeat(250), &mut bytes)?;
/// let (mut small, mut back) = ([0; 1024], [0; 2048]);
/// table::to_form_2(&bytes, &mut small)?;
/// table::to_form_1(&small, &mut back)?;
/// assert_eq!(back, bytes); // there and back gives the same bytes
/// # Ok::<(), masoritun::Refusal>(())
/// ```
pub fn to_form_1(bytes: &[u8], result: &mut [u8]) -> Result<(), Refusal> {
    // SAFETY: two slices with their lengths; `result` is borrowed alone, so they do not overlap.
    guarded(|| unsafe { ffi::mst_table_to_form_1(bytes.as_ptr(), bytes.len(), result.as_mut_ptr(), result.len()) })
}

/// Moves a table to form 2, which leaves each row's last gain out: the same rows. One that has that form is copied.
///
/// # Errors
///
/// The first that holds, in this order; `result` then stays as it was.
///
/// - What [`read`] refuses, but for 1: 9, then in each block 10, 11, in block 0 also 9, then 8, then 12.
/// - 15 [`Refusal::OneBand`]: the table has one band, and no form 2.
/// - 9 [`Refusal::StoredLength`]: `result` is not as long as the table in that form, [`moved_len`].
///
/// # Example
///
/// ```
/// use masoritun::{Refusal, table};
///
/// let rows = [16384, 16384, 32768, 0, 0, 32768];
/// let (mut bytes, mut small) = ([0; 512], [0; 512]);
/// table::write(2, 3, &rows, &mut bytes)?;
/// table::to_form_2(&bytes, &mut small)?;
/// assert_eq!(small[..14], [2, 0, 0, 0, 2, 0, 3, 0, 0, 64, 0, 128, 0, 0]); // the header, and each row's first gain
/// let mut gains = [0; 6];
/// table::read(&small, &mut gains)?;
/// assert_eq!(gains, rows);
///
/// table::write(1, 1, &[32768], &mut bytes)?;
/// assert_eq!(table::to_form_2(&bytes, &mut small), Err(Refusal::OneBand));
/// # Ok::<(), Refusal>(())
/// ```
pub fn to_form_2(bytes: &[u8], result: &mut [u8]) -> Result<(), Refusal> {
    // SAFETY: two slices with their lengths; `result` is borrowed alone, so they do not overlap.
    guarded(|| unsafe { ffi::mst_table_to_form_2(bytes.as_ptr(), bytes.len(), result.as_mut_ptr(), result.len()) })
}

/// The header of one block, and the rows that it holds.
#[derive(Clone, Copy, Debug, PartialEq, Eq)]
pub struct Block {
    /// The form of the table, 1 or 2.
    pub form: u32,
    /// The bands of the table.
    pub bands: u32,
    /// The rows of the table.
    pub rows: u32,
    /// The rows that this block holds.
    pub held: u32,
}

/// Reads one block of either form by itself; `number` is its place in the table, from 0.
///
/// # Errors
///
/// The first that holds, in this order.
///
/// - 9 [`Refusal::StoredLength`]: `bytes` is not 512 long.
/// - 10 [`Refusal::Check`]: a check is wrong; the place is `number`.
/// - 11 [`Refusal::Header`]: form, block number, bands or rows wrong, or a number that such a table has not; one band in form 2; the
///   place is `number`.
/// - 8 [`Refusal::RowTotal`]: a row does not add up to 32768, or in form 2 its stored gains pass that; the place is the row, from 0
///   through the table.
/// - 12 [`Refusal::Unused`]: an unused byte is not zero; the place is `number`.
///
/// # Example
///
/// ```
/// use masoritun::table::{self, Block};
///
/// let mut bytes = [0; 1024];
/// table::write(1, 251, &[32768; 251], &mut bytes)?;
/// // A block of one band holds 250 rows, so the second has one.
/// assert_eq!(table::read_block(1, &bytes[512..])?, Block { form: 1, bands: 1, rows: 251, held: 1 });
/// # Ok::<(), masoritun::Refusal>(())
/// ```
pub fn read_block(number: u32, bytes: &[u8]) -> Result<Block, Refusal> {
    let mut block = Block { form: 0, bands: 0, rows: 0, held: 0 };
    let Block { form, bands, rows, held } = &mut block;
    // SAFETY: a slice with its length, and four numbers of our own.
    guarded(|| unsafe { ffi::mst_table_read_block(number, bytes.as_ptr(), bytes.len(), form, bands, rows, held) })?;
    Ok(block)
}
