//! Maps over slices, from the first element to the last.

use crate::ops::BitOps;
use crate::span::SrcDest;
use crate::{Simd, assume_init};

#[inline(always)]
pub fn simd_map<'d, T: Copy, O: BitOps<T>>(
    ops: O,
    src_dest: SrcDest<'_, 'd, T>,
    mut f: impl FnMut(O::Simd) -> O::Simd,
) -> &'d mut [T] {
    match src_dest {
        SrcDest::Two(src, dst) => {
            assert_eq!(ops.len(), 1);
            for (d, s) in dst.iter_mut().zip(src) {
                d.write(f(ops.splat(*s)).to_array()[0]);
            }
            // SAFETY: `SrcDest` has slices of one length, so every element was written above.
            unsafe { assume_init(dst) }
        }
        SrcDest::InPlace(data) => {
            simd_apply::<_, _, _, 1>(ops, data, f);
            data
        }
    }
}

#[inline(always)]
pub fn simd_apply<T: Copy, O: BitOps<T>, F: FnMut(O::Simd) -> O::Simd, const UNROLL: usize>(ops: O, xs: &mut [T], mut f: F) {
    assert_eq!(ops.len(), 1);
    for x in xs.iter_mut() {
        *x = f(ops.splat(*x)).to_array()[0];
    }
}
