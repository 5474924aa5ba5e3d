//! Iteration over a slice, a vector at a time.

use crate::ops::BitOps;

pub struct Iter<'a, T, O> {
    xs: &'a [T],
    ops: O,
}

impl<T: Copy, O: BitOps<T>> Iterator for Iter<'_, T, O> {
    type Item = O::Simd;
    #[inline(always)]
    fn next(&mut self) -> Option<O::Simd> {
        let (first, rest) = self.xs.split_at_checked(self.ops.len())?;
        self.xs = rest;
        Some(self.ops.load(first))
    }
}

/// Every fold is one ordered pass from the first element to the last, as document 01 has it: nothing is joined.
impl<T: Copy, O: BitOps<T>> Iter<'_, T, O> {
    #[inline(always)]
    pub fn fold_unroll<const UNROLL: usize>(
        self,
        init: O::Simd,
        f: impl FnMut(O::Simd, O::Simd) -> O::Simd,
        _join: impl FnMut(O::Simd, O::Simd) -> O::Simd,
    ) -> O::Simd {
        self.fold(init, f)
    }
    #[inline(always)]
    pub fn fold_n_unroll<const N: usize, const UNROLL: usize>(
        self,
        init: [O::Simd; N],
        f: impl FnMut([O::Simd; N], O::Simd) -> [O::Simd; N],
        _join: impl FnMut([O::Simd; N], [O::Simd; N]) -> [O::Simd; N],
    ) -> [O::Simd; N] {
        self.fold(init, f)
    }
}

pub trait SimdIterable {
    type Elem: Copy;
    fn simd_iter<O: BitOps<Self::Elem>>(&self, ops: O) -> Iter<'_, Self::Elem, O>;
    fn simd_iter_pad<O: BitOps<Self::Elem>>(&self, ops: O) -> Iter<'_, Self::Elem, O>;
}

/// With one lane nothing is left over, so nothing is padded.
impl<T: Copy> SimdIterable for [T] {
    type Elem = T;
    #[inline(always)]
    fn simd_iter<O: BitOps<T>>(&self, ops: O) -> Iter<'_, T, O> {
        assert_eq!(ops.len(), 1);
        Iter { xs: self, ops }
    }
    #[inline(always)]
    fn simd_iter_pad<O: BitOps<T>>(&self, ops: O) -> Iter<'_, T, O> {
        self.simd_iter(ops)
    }
}
