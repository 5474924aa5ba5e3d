//! What one timed call is given. The buffers are the same for all contenders.

use cases::Rng;
use reference::split::gains;
use reference::table::{BLOCK, blocks, store};
use std::slice::{from_raw_parts, from_raw_parts_mut};

/// Of the tables that there are.
pub const BANDS: [usize; 3] = [3, 8, 16];
pub const ROWS: usize = 1024;
const MOST: usize = 16_384;
const UNWRITTEN: u64 = 0xa5a5_a5a5_a5a5_a5a5;

/// As in c/job.h.
#[repr(C)]
pub struct Job {
    pub n: usize,
    pub src: *const f32,
    pub scales: *const f32,
    pub biases: *const f32,
    pub table: *const Table,
    pub dst: *mut u8,
    pub alpha: f32,
    pub offset: f32,
    pub inv_scale: f32,
    pub pre_scale_bias: f32,
    pub scale: f32,
    pub bias: f32,
    pub zero_point: u8,
}

impl Job {
    pub fn src(&self) -> &[f32] {
        // SAFETY: `Buffers::job` gave n elements.
        unsafe { from_raw_parts(self.src, self.n) }
    }
    pub fn scales(&self) -> &[f32] {
        // SAFETY: as in `src`.
        unsafe { from_raw_parts(self.scales, self.n) }
    }
    pub fn biases(&self) -> &[f32] {
        // SAFETY: as in `src`.
        unsafe { from_raw_parts(self.biases, self.n) }
    }
    pub fn table(&self) -> &Table {
        // SAFETY: one of `Buffers::new`, which outlives the job.
        unsafe { &*self.table }
    }
    /// The first `n` numbers of what is written.
    #[allow(clippy::mut_from_ref)]
    pub fn out<T>(&self, n: usize) -> &mut [T] {
        assert!(n * size_of::<T>() <= MOST * 4);
        // SAFETY: the buffer has room and is aligned for u64; one at a time is used.
        unsafe { from_raw_parts_mut(self.dst.cast(), n) }
    }
    pub fn clear(&self) {
        self.out(MOST / 2).fill(UNWRITTEN);
    }
    pub fn written(&self) -> &[u64] {
        self.out(MOST / 2)
    }
}

/// The same rows in both forms.
pub struct Table {
    pub bands: usize,
    pub gains: Vec<u16>,
    forms: [Vec<u8>; 2],
}

impl Table {
    fn drawn(rng: &mut Rng, bands: usize) -> Table {
        let mut row = || gains(&text::softmax(false, &rng.list(bands, |r| r.unit() * 5.0)));
        let gains: Vec<u16> = (0..ROWS).flat_map(|_| row()).collect();
        let forms = [1, 2].map(|form| {
            let mut bytes = vec![0; BLOCK * blocks(form, bands, ROWS)];
            store(form, bands, &gains, &mut bytes);
            bytes
        });
        Table { bands, gains, forms }
    }
    pub fn bytes(&self, form: usize) -> &[u8] {
        &self.forms[form - 1]
    }
}

pub struct Buffers {
    src: Vec<f32>,
    scales: Vec<f32>,
    biases: Vec<f32>,
    tables: [Table; 3],
    dst: Vec<u64>,
}

impl Buffers {
    pub fn new() -> Buffers {
        let mut rng = Rng::new("bench");
        let tables = BANDS.map(|bands| Table::drawn(&mut rng, bands));
        let scales = rng.list(MOST, |r| 1.0 + 0.5 * r.unit());
        let biases = rng.list(MOST, Rng::unit);
        Buffers { src: vec![0.0; MOST], scales, biases, tables, dst: vec![UNWRITTEN; MOST / 2] }
    }

    /// Inputs evenly from `least` up to `largest`, the same for every n.
    pub fn draw(&mut self, least: f32, largest: f32) {
        let mut rng = Rng::new("bench input");
        self.src = rng.list(MOST, |r| least + (largest - least) * (0.5 * r.unit() + 0.5));
    }

    /// `bias` is 0 for the kernel that has an arm of its own for that; n is the table's gains for a kernel of the table.
    pub fn job(&mut self, n: usize, bias: f32) -> Job {
        assert!(n <= MOST);
        let table = self.tables.iter().find(|t| t.gains.len() == n).unwrap_or(&self.tables[0]);
        Job {
            n,
            src: self.src.as_ptr(),
            scales: self.scales.as_ptr(),
            biases: self.biases.as_ptr(),
            table,
            dst: self.dst.as_mut_ptr().cast(),
            alpha: 1.25,
            offset: 0.75,
            inv_scale: 100.0,
            pre_scale_bias: 0.25,
            scale: 1.5,
            bias,
            zero_point: 128,
        }
    }
}
