//! The stored table by the words of documents 01 and 02, without the library.

use masoritun::table::BLOCK;

/// The two checks of a block, put right.
pub fn seal(block: &mut [u8]) {
    let plain: u32 = block[..508].iter().map(|&b| b as u32).sum();
    let weighed: u32 = (1..).zip(&block[..508]).map(|(i, &b)| i * b as u32).sum();
    block[508..510].copy_from_slice(&(plain as u16).to_le_bytes());
    block[510..512].copy_from_slice(&(weighed as u16).to_le_bytes());
}

/// The bytes of a table: form 1 stores every gain, form 2 leaves each row's last one out.
pub fn stored(form: u16, bands: usize, gains: &[u16]) -> Vec<u8> {
    let width = bands + 1 - form as usize;
    let rows: Vec<&[u16]> = gains.chunks_exact(bands).collect();
    let mut bytes = vec![];
    for (number, held) in rows.chunks(250 / width).enumerate() {
        let head = [form, number as u16, bands as u16, rows.len() as u16];
        let gains = held.iter().flat_map(|row| row[..width].iter().copied());
        let mut block: Vec<u8> = head.into_iter().chain(gains).flat_map(u16::to_le_bytes).collect();
        block.resize(BLOCK, 0);
        seal(&mut block);
        bytes.extend(block);
    }
    bytes
}
